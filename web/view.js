// How large the picture is on the screen, and which part of it is seen.

import { find } from "./common.js";
import { Turned, UPRIGHT } from "./orientation.js";

// The most that a picture is enlarged, and how far a key and a turn of the wheel zoom.
const MOST_SCALE = 32, BY_KEY = 1.25, BY_WHEEL = 0.0015, BY_PINCH_OF_PAD = 0.01;

export class View {
  /** Calls `changed` when the picture has another size on the screen. */
  constructor(changed) {
    this.changed = changed;
    for (const it of ["stage", "frame", "canvas", "overlay", "zoom"]) {
      this[it] = find(it);
    }
    [this.scale, this.isFitting, this.orientation] = [1, true, UPRIGHT];
    this.stage.addEventListener("wheel", (event) => this.wheel(event), { passive: false });
    window.addEventListener("resize", () => (this.isFitting ? this.fit() : this.resize(this.scale)));
  }

  /** How the picture is turned on the screen. */
  get turned() {
    return new Turned(this.orientation, this.canvas.width, this.canvas.height);
  }

  /** Shows the picture turned so. */
  orient(orientation) {
    if (`${orientation}` !== `${this.orientation}`) {
      this.orientation = orientation;
      this.isFitting ? this.fit() : this.resize(this.scale);
    }
  }

  /** Shows the whole picture. */
  fit() {
    // (no scroll bar takes room then, whatever the size before)
    this.stage.style.overflow = "hidden";
    this.resize(this.fitting());
    this.stage.style.overflow = "";
    this.isFitting = true;
  }

  /** Whether a part of the picture isn't seen. */
  get canScroll() {
    const { scrollWidth, scrollHeight, clientWidth, clientHeight } = this.stage;
    return scrollWidth > clientWidth || scrollHeight > clientHeight;
  }

  /** Whether a place of the window is inside the stage, and not on a scroll bar. */
  hasPlace([x, y]) {
    const box = this.stage.getBoundingClientRect();
    return x - box.left < this.stage.clientWidth && y - box.top < this.stage.clientHeight;
  }

  fitting() {
    const { width, height } = this.turned;
    return Math.min(this.stage.clientWidth / width, this.stage.clientHeight / height, MOST_SCALE);
  }

  /** Gives the picture this size. What is at a place of the window stays there, or what is in the middle. */
  zoomTo(scale, place = this.middle()) {
    const before = this.frame.getBoundingClientRect(), old = this.scale;
    this.resize(Math.min(Math.max(scale, Math.min(this.fitting(), 1)), MOST_SCALE));
    const after = this.frame.getBoundingClientRect();
    const moved = [before.left, before.top].map(
      (it, axis) => it + (place[axis] - it) * (1 - this.scale / old)
    );
    this.scroll(after.left - moved[0], after.top - moved[1]);
  }

  zoomBy(factor, place) {
    this.zoomTo(this.scale * factor, place);
  }

  step(direction) {
    this.zoomBy(BY_KEY ** direction);
  }

  scroll(right, down) {
    this.stage.scrollLeft += right;
    this.stage.scrollTop += down;
  }

  resize(scale) {
    const { canvas, frame, overlay, stage, turned } = this, { width, height } = turned;
    [this.scale, this.isFitting] = [scale, false];
    const [wide, high] = [width * scale, height * scale];
    [frame.style.width, frame.style.height] = [`${wide}px`, `${high}px`];
    // (whole pixels, so that a pixel of the screen is one of the picture at its actual size)
    frame.style.marginLeft = `${Math.max(Math.floor((stage.clientWidth - wide) / 2), 0)}px`;
    frame.style.marginTop = `${Math.max(Math.floor((stage.clientHeight - high) / 2), 0)}px`;
    for (const { style } of [canvas, overlay]) {
      [style.width, style.height] = [`${canvas.width * scale}px`, `${canvas.height * scale}px`];
      style.transform = turned.style(scale);
    }
    overlay.classList.toggle("swapped", turned.isSwapped);
    canvas.style.imageRendering = scale < 1 ? "auto" : "pixelated";
    this.zoom.textContent = frame.hidden ? "" : `${Math.max(Math.round(100 * scale), 1)} %`;
    this.changed();
  }

  middle() {
    const box = this.stage.getBoundingClientRect();
    return [box.left + box.width / 2, box.top + box.height / 2];
  }

  wheel(event) {
    if (this.frame.hidden || event.shiftKey) {
      return;
    }
    event.preventDefault();
    const speed = event.ctrlKey ? BY_PINCH_OF_PAD : BY_WHEEL;
    this.zoomBy(Math.exp(-event.deltaY * speed), [event.clientX, event.clientY]);
  }
}
