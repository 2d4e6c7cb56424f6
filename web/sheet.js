// The file before it is saved: its pixels as the browser decodes them, and over them the numbers of the covers.

import { around } from "./brush.js";
import { addDrawn, find } from "./common.js";

// How large a number is, the most that the file is enlarged, and by how much a press of a button zooms.
const PLATE = 15, MOST_ENLARGED = 16, ZOOM = 1.5;

export class Sheet {
  constructor() {
    Object.assign(this, { size: null, marks: [], scale: 1 });
    for (const it of ["sheet", "result", "marks", "pane"]) {
      this[it] = find(it);
    }
    find("with-numbers").addEventListener("change", ({ target }) => { this.marks.style.display = target.checked ? "" : "none"; });
    find("preview-larger").addEventListener("click", () => this.zoom(this.scale * ZOOM));
    find("preview-smaller").addEventListener("click", () => this.zoom(this.scale / ZOOM));
    this.pane.addEventListener("keydown", (event) => this.key(event));
    window.addEventListener("resize", () => this.size && this.zoom(this.fitting()));
  }

  /** Shows a decoded file. The bitmap belongs to the screen then. */
  show(bitmap, size, covers) {
    Object.assign(this, { size, covers });
    const canvas = this.result;
    [canvas.width, canvas.height] = size;
    canvas.getContext("bitmaprenderer").transferFromImageBitmap(bitmap);
    const numbers = covers.map((it) => it.number).join(", ");
    canvas.setAttribute("aria-label", `The file. Covers in it: ${numbers || "none"}`);
    this.sheet.hidden = false;
    this.zoom(this.fitting());
  }

  clear() {
    this.sheet.hidden = true;
    this.size = null;
    this.result.getContext("bitmaprenderer").transferFromImageBitmap(null);
  }

  fitting() {
    // (no scroll bar takes room then)
    this.pane.style.overflow = "hidden";
    const [width, height] = this.size, { clientWidth, clientHeight } = this.pane;
    this.pane.style.overflow = "";
    return Math.min(clientWidth / width, clientHeight / height, MOST_ENLARGED);
  }

  key(event) {
    const act = { "+": ZOOM, "=": ZOOM, "-": 1 / ZOOM }[event.key];
    if (act && this.size) {
      event.preventDefault();
      this.zoom(this.scale * act);
    }
  }

  zoom(scale) {
    this.scale = Math.min(Math.max(scale, Math.min(this.fitting(), 1)), MOST_ENLARGED);
    const [width, height] = this.size.map((it) => it * this.scale);
    for (const { style } of [this.sheet, this.result, this.marks]) {
      [style.width, style.height] = [`${width}px`, `${height}px`];
    }
    this.result.style.imageRendering = this.scale < 1 ? "auto" : "pixelated";
    this.marks.setAttribute("viewBox", `0 0 ${width} ${height}`);
    this.draw(width, height);
  }

  /** Draws an outline round each cover, and its number where it hides no other one, if there is room. */
  draw(width, height) {
    this.marks.replaceChildren();
    const taken = [];
    for (const { number, parts, isWeak } of this.covers) {
      const boxes = parts.map((it) => scaled(it, this.scale)), group = addDrawn(this.marks, "g", { class: isWeak ? "weak" : "" });
      addDrawn(group, "rect", { ...edges(around(boxes)), class: "outline" });
      const size = [PLATE * (0.5 + 0.6 * `${number}`.length), PLATE * 1.2];
      const place = placeOf(parts.length > 1 ? boxes[boxes.length >> 1] : boxes[0], size, [width, height], taken);
      taken.push(place);
      addDrawn(group, "rect", { ...edges(place), class: "plate", rx: 3 });
      const text = { x: place.left + place.width / 2, y: place.top + place.height / 2, "font-size": PLATE };
      addDrawn(group, "text", text).textContent = number;
    }
  }
}

function scaled({ left, top, width, height }, scale) {
  return { left: left * scale, top: top * scale, width: width * scale, height: height * scale };
}

function edges({ left, top, width, height }) {
  return { x: left, y: top, width, height };
}

/** Where a number is: in the middle of its cover, or at one of its sides, where it is over the fewest others. */
function placeOf(box, [width, height], most, taken) {
  const middle = [box.left + (box.width - width) / 2, box.top + (box.height - height) / 2];
  const [right, low] = [box.left + box.width, box.top + box.height];
  const places = [
    middle, [box.left, middle[1]], [right - width, middle[1]], [right, middle[1]], [box.left - width, middle[1]],
    [middle[0], low], [middle[0], box.top - height],
  ].map(([left, top]) => ({
    left: Math.max(Math.min(left, most[0] - width), 0), top: Math.max(Math.min(top, most[1] - height), 0), width, height,
  }));
  const over = (one) => taken.filter((it) => one.left < it.left + it.width && it.left < one.left + one.width
    && one.top < it.top + it.height && it.top < one.top + one.height).length;
  return places.reduce((best, it) => (over(it) < over(best) ? it : best));
}
