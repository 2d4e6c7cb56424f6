// What pointers do on the picture and beside it: a mouse or a pen drags. A finger drags where nothing can be scrolled. Else it
// scrolls, or drags after a hold. Two fingers zoom.

import { find } from "./common.js";

// How long a finger holds still before it draws, in milliseconds, and how far it may go meanwhile.
const HOLD = 250, STILL = 6;

export class Pointers {
  // (`isOpen` of the acts tells whether there is a picture)

  /** The `acts` are called in a drag: `begin`, `move`, `end` and `cancel`; `swipe` where a finger scrolls. */
  constructor(surface, view, acts) {
    Object.assign(this, { surface, view, acts, fingers: new Map(), mode: "", timer: 0 });
    surface.addEventListener("pointerdown", (event) => this.down(event));
    surface.addEventListener("pointermove", (event) => this.move(event));
    surface.addEventListener("pointerup", (event) => this.up(event));
    surface.addEventListener("pointercancel", (event) => this.lost(event));
    // (a long press opens no menu while it draws)
    surface.addEventListener("contextmenu", (event) => this.fingers.size > 0 && event.preventDefault());
  }

  down(event) {
    if (!this.acts.isOpen() || !this.view.hasPlace([event.clientX, event.clientY])) {
      return undefined;
    }
    event.preventDefault();
    if (event.pointerType === "touch") {
      return this.finger(event);
    }
    if (this.mode === "" && (event.button === 0 || event.button === 1)) {
      this.surface.setPointerCapture(event.pointerId);
      this.last = [event.clientX, event.clientY];
      this.start(event.button === 0 ? "drag" : "scroll", event);
    }
    return undefined;
  }

  /** Another finger is on the picture. */
  finger(event) {
    this.surface.setPointerCapture(event.pointerId);
    this.fingers.set(event.pointerId, [event.clientX, event.clientY]);
    find("by-finger").hidden = false;
    clearTimeout(this.timer);
    if (this.fingers.size > 1) {
      // (a second one ends what the first began)
      this.stop();
      this.mode = "zoom";
    } else if (find("at-once").checked) {
      this.start("drag", event);
    } else {
      [this.mode, this.first, this.last] = ["wait", event, [event.clientX, event.clientY]];
      this.timer = setTimeout(() => this.start("drag", this.first), HOLD);
    }
  }

  start(mode, event) {
    this.mode = mode;
    if (mode === "drag") {
      this.acts.begin(event);
    }
  }

  /** Ends a drag without a trace. */
  stop() {
    clearTimeout(this.timer);
    if (this.mode === "drag") {
      this.acts.cancel();
    }
    this.mode = "";
  }

  move(event) {
    const now = [event.clientX, event.clientY];
    if (this.mode === "zoom") {
      this.pinch(event.pointerId, now);
    } else if (this.mode === "drag") {
      this.acts.move(event);
    } else if (this.mode === "wait" && Math.hypot(now[0] - this.last[0], now[1] - this.last[1]) > STILL) {
      clearTimeout(this.timer);
      if (this.view.canScroll) {
        this.mode = "scroll";
        this.acts.swipe();
      } else {
        // (there is nothing to scroll, so the person means to draw)
        this.start("drag", this.first);
        this.acts.move(event);
      }
    }
    if (this.mode === "scroll") {
      this.view.scroll(this.last[0] - now[0], this.last[1] - now[1]);
      this.last = now;
    }
  }

  /** Two fingers: how far they are apart zooms, and their middle scrolls. */
  pinch(id, now) {
    const measure = () => {
      const [[x, y], [otherX, otherY]] = [...this.fingers.values()];
      return [Math.hypot(x - otherX, y - otherY), (x + otherX) / 2, (y + otherY) / 2];
    };
    if (this.fingers.size === 2 && this.fingers.has(id)) {
      const before = measure();
      this.fingers.set(id, now);
      const after = measure();
      this.view.zoomBy(after[0] / Math.max(before[0], 1), [before[1], before[2]]);
      this.view.scroll(before[1] - after[1], before[2] - after[2]);
    }
  }

  up(event) {
    const { mode } = this;
    this.fingers.delete(event.pointerId);
    clearTimeout(this.timer);
    if (mode === "zoom" && this.fingers.size > 0) {
      return;
    }
    this.mode = "";
    if (mode === "wait") {
      // (a tap is a drag of no length)
      this.acts.begin(this.first);
    }
    if (mode === "wait" || mode === "drag") {
      this.acts.end(event);
    }
  }

  lost(event) {
    this.fingers.delete(event.pointerId);
    this.stop();
  }
}
