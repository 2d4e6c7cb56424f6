// The picture on the screen, with its rectangles: drawn, moved and resized by pointer or by keys.

import { around, strokeOf } from "./brush.js";
import { addDrawn, find, setAll } from "./common.js";
import { covers } from "./edits.js";
import { between, orientationOf } from "./orientation.js";
import { Pointers } from "./pointers.js";
import { View } from "./view.js";
import { wordsOf } from "./words.js";

const CORNERS = ["left top", "right top", "left bottom", "right bottom"];
// How far a pointer goes before it draws, and how wide a brush is on the screen.
const SLACK = 4, BRUSH = 24;
// How large a number on the picture is.
const NUMBER_SIZE = 18;
// How many pixels are read at a time, so that a large picture isn't in memory once more.
const AT_A_TIME = 2 ** 20;
const ARROWS = { ArrowLeft: [-1, 0], ArrowRight: [1, 0], ArrowUp: [0, -1], ArrowDown: [0, 1] };

/** Whether an edit has a rectangle that can be moved on the picture. */
export function isOnStage(edit) {
  return ["fill", "means", "mosaic", "crop"].includes(edit.word);
}

export class Stage {
  // (with the tool `select` a drag moves or resizes a rectangle; with every other one it draws, wherever it begins)

  // (`isOpen` of the acts tells whether there is a picture)

  /** The `acts` are called with what a person does: `draw`, `change`, `select`, `remove`, `swipe`. `tool` gives the tool. */
  constructor(acts, tool) {
    Object.assign(this, { acts, tool, drag: null, edits: [], selected: -1, warned: [] });
    for (const it of ["stage", "frame", "canvas", "overlay", "drop"]) {
      this[it] = find(it);
    }
    this.context = this.canvas.getContext("2d", { willReadFrequently: true });
    this.view = new View(() => this.render(this.edits, this.selected));
    // (on all of the stage: a drag may begin in the grey beside the picture, and go over its edge)
    this.pointers = new Pointers(this.stage, this.view, {
      isOpen: acts.isOpen,
      begin: (event) => this.press(event), move: (event) => this.pull(event),
      end: (event) => this.release(event), cancel: () => this.cancel(), swipe: () => acts.swipe(),
    });
    this.overlay.addEventListener("focusin", (event) => this.acts.select(indexOf(event.target)));
  }

  get scale() {
    return this.view.scale;
  }

  /** Shows a picture that the browser decoded, and gives its bytes part by part, each with its place. */
  read(bitmap, give) {
    const { canvas, context } = this, { width, height } = bitmap, rows = Math.ceil(AT_A_TIME / width);
    [canvas.width, canvas.height] = [width, height];
    context.drawImage(bitmap, 0, 0);
    for (let top = 0; top < height; top += rows) {
      give(context.getImageData(0, top, width, Math.min(rows, height - top)).data, 4 * width * top);
    }
    this.overlay.setAttribute("viewBox", `0 0 ${canvas.width} ${canvas.height}`);
    this.frame.hidden = false;
    this.drop.hidden = true;
    this.view.fit();
  }

  /** Puts these rectangles of a picture's bytes on the screen. */
  put(bytes, rectangles) {
    const image = new ImageData(bytes, this.canvas.width);
    for (const { left, top, width, height } of rectangles) {
      this.context.putImageData(image, 0, 0, left, top, width, height);
    }
  }

  /** Draws the rectangles of these edits, one of them as the selected one. Some of them have their numbers on the picture. */
  render(edits, selected, warned = this.warned) {
    Object.assign(this, { edits, selected, warned });
    this.view.orient(orientationOf(edits));
    this.overlay.classList.toggle("selecting", this.tool() === "select");
    const groups = [...this.overlay.querySelectorAll("g:not(.draft)")];
    groups.slice(edits.length).forEach((it) => it.remove());
    edits.forEach((edit, index) => {
      const group = groups[index] ?? newGroup(this.overlay, index);
      const isShown = isOnStage(edit) || (edit.word === "brush" && index === selected);
      group.style.display = isShown ? "" : "none";
      group.setAttribute("class", `${edit.word}${index === selected ? " selected" : ""}`);
      group.setAttribute("aria-label", `${wordsOf(this.view.turned.seen(edit))}, rectangle ${index + 1}`);
      if (isShown) {
        this.place(group, edit);
        this.number(group.querySelector("text"), edit, warned.includes(edit) ? index + 1 : "");
      }
    });
  }

  /** Puts a number in the middle of a rectangle, upright on the screen. */
  number(text, { left, top, width, height }, words) {
    const [a, b, c, d] = this.view.turned.steps;
    text.textContent = words;
    setAll(text, {
      transform: `translate(${left + width / 2} ${top + height / 2}) matrix(${a} ${c} ${b} ${d} 0 0)`,
      "font-size": NUMBER_SIZE / this.scale, "stroke-width": NUMBER_SIZE / 4 / this.scale,
    });
  }

  place(group, rectangle) {
    const { left, top, width, height } = rectangle;
    const [under, over, dim] = group.children, handles = group.querySelectorAll(".handle");
    for (const it of [under, over]) {
      setAll(it, { x: left, y: top, width, height });
    }
    const whole = `M0 0H${this.canvas.width}V${this.canvas.height}H0Z`;
    dim.setAttribute("d", `${whole}M${left} ${top}h${width}v${height}h${-width}Z`);
    // (a finger needs larger ones, which are outside, so that what is between them can be seen)
    const isCoarse = matchMedia("(pointer: coarse)").matches;
    const size = (isCoarse ? 24 : 12) / this.scale, out = isCoarse ? size : size / 2;
    const along = (begin, length, isEnd, most) =>
      isCoarse ? Math.min(Math.max(isEnd ? begin + length : begin - out, 0), most - size)
        : begin + isEnd * length - out;
    handles.forEach((it, index) => {
      const x = along(left, width, index % 2, this.canvas.width);
      const y = along(top, height, index >> 1, this.canvas.height);
      setAll(it, { x, y, width: size, height: size });
    });
  }

  /** Where a pointer is, in pixels of the picture. It may be outside. */
  at(event) {
    const box = this.canvas.getBoundingClientRect();
    return this.view.turned.place([(event.clientX - box.left) / this.scale, (event.clientY - box.top) / this.scale]);
  }

  // (or null, where the pointer was beside the picture all the time)

  /** The pixels from one place of a pointer to another: each that is under a pixel of the screen which it touched. */
  touched(from, to) {
    const most = [this.canvas.width, this.canvas.height];
    const inside = (value, axis) => Math.min(Math.max(value, 0), most[axis]);
    // (the wheel may have zoomed since it began)
    const side = 1 / Math.min(this.scale, this.drag.scale), dot = this.view.turned.step([side, side]), ends = (axis) => {
      const both = [from[axis], to[axis]];
      return [...both, ...both.map((it) => it + dot[axis])];
    };
    if (most.some((it, axis) => Math.max(...ends(axis)) <= 0 || Math.min(...ends(axis)) >= it)) {
      return null;
    }
    const begin = most.map((it, axis) => Math.min(inside(Math.floor(Math.min(...ends(axis))), axis), it - 1));
    const end = most.map((_, axis) => Math.max(inside(Math.ceil(Math.max(...ends(axis))), axis), begin[axis] + 1));
    return between(begin, end);
  }

  /** The edit under a pointer, and its corner where the pointer is on it. Of several it is the selected one, else the last. */
  under(event) {
    const all = document.elementsFromPoint(event.clientX, event.clientY).filter((it) => it.closest("#overlay g:not(.draft)"));
    const own = all.find((it) => it.dataset.corner) ?? all.find((it) => indexOf(it) === this.selected) ?? all[0];
    return own ? { index: indexOf(own), corner: own.dataset.corner } : { index: -1 };
  }

  press(event) {
    const { index, corner } = this.under(event), from = this.at(event);
    // (a stroke keeps the width that it begins with, however the picture is zoomed meanwhile)
    this.drag = {
      tool: this.tool(), index, from, places: [from], screen: [event.clientX, event.clientY], scale: this.scale, width: this.brushWidth()
    };
    this.overlay.classList.add("drawing");
    // (the keys go to what is selected, and not to a button that was pressed before)
    this.stage.focus({ preventScroll: true });
    if (this.drag.tool === "select" && index >= 0) {
      this.acts.select(index);
      Object.assign(this.drag, { corner, old: this.edits[index], group: this.groupOf(index) });
    }
  }

  pull(event) {
    const { drag } = this;
    const far = drag && Math.hypot(event.clientX - drag.screen[0], event.clientY - drag.screen[1]);
    if (!drag || (!drag.now && far < SLACK) || (drag.tool === "select" && !drag.old)) {
      return;
    }
    if (!drag.group) {
      drag.group = newGroup(this.overlay, -1);
      drag.group.setAttribute("class", "draft");
    }
    if (drag.tool === "brush") {
      this.paint(drag, event);
      return;
    }
    drag.now = this.dragged(drag, this.at(event)) ?? drag.now;
    if (!drag.now) {
      return;
    }
    this.place(drag.group, drag.now);
    if (drag.old && covers(drag.old)) {
      drag.group.querySelector(".uncovers").setAttribute("d", outlineWithout(drag.old, drag.now));
    }
  }

  /** A brush goes on. */
  paint(drag, event) {
    drag.stroke ??= addDrawn(drag.group, "path", { class: "stroke", "stroke-width": drag.width });
    const events = event.getCoalescedEvents?.() ?? [];
    drag.places.push(...(events.length ? events : [event]).map((it) => this.at(it)));
    drag.now = drag.places;
    drag.stroke.setAttribute("d", `M${drag.places.map((it) => it.join(" ")).join("L")}`);
  }

  /** How wide a brush is, in pixels of the picture. */
  brushWidth() {
    return Math.max(find("brush-width").valueAsNumber || Math.ceil(BRUSH / this.scale), 1);
  }

  /** The rectangle that a drag makes. */
  dragged({ old, corner, from }, to) {
    const { width, height } = this.canvas;
    if (!old) {
      return this.touched(from, to);
    }
    if (!corner) {
      return shifted(old, Math.round(to[0] - from[0]), Math.round(to[1] - from[1]), width, height);
    }
    const fixed = [corner.includes("left") ? old.left + old.width : old.left,
      corner.includes("top") ? old.top + old.height : old.top];
    const other = to.map((it, axis) => Math.min(Math.max(Math.round(it), 0), [width, height][axis]))
      .map((it, axis) => (it === fixed[axis] ? awayFrom(it, [width, height][axis]) : it));
    return between(fixed.map((it, axis) => Math.min(it, other[axis])),
      fixed.map((it, axis) => Math.max(it, other[axis])));
  }

  release(event) {
    this.pull(event);
    if (this.drag?.tool === "brush" && !this.drag.now) {
      this.drag.group = newGroup(this.overlay, -1);
      this.paint(this.drag, event);
    }
    const drag = this.cancel();
    if (drag?.now && drag.old) {
      this.acts.change(drag.index, drag.now);
    } else if (drag?.stroke) {
      const { width, height } = this.canvas;
      const parts = strokeOf(drag.places, drag.width, width, height);
      if (parts.length > 0) {
        this.acts.draw({ ...around(parts), parts });
      }
    } else if (drag?.now) {
      this.acts.draw(drag.now);
    } else if (drag) {
      // (a click selects what is there, and draws nothing)
      this.acts.select(drag.index);
    }
  }

  /** Ends a drag, and takes its rectangle off the screen. */
  cancel() {
    const { drag } = this;
    this.drag = null;
    this.overlay.classList.remove("drawing");
    if (drag && !drag.old) {
      drag.group?.remove();
    }
    drag?.group?.querySelector(".uncovers")?.setAttribute("d", "");
    this.render(this.edits, this.selected);
    return drag;
  }

  /** What a key does to the selected rectangle: whether it does anything. */
  key(event) {
    const { selected } = this, edit = this.edits[selected], arrow = ARROWS[event.key];
    if (edit && (event.key === "Delete" || event.key === "Backspace")) {
      this.stage.focus({ preventScroll: true });
      this.acts.remove(selected);
      return true;
    }
    if (!edit || !arrow || !isOnStage(edit)) {
      return false;
    }
    const [dx, dy] = arrow.map((it) => it * (event.ctrlKey || event.metaKey ? 10 : 1));
    const { turned } = this.view, moved = event.shiftKey ? resized : shifted;
    const now = moved(turned.onScreen(edit), dx, dy, turned.width, turned.height);
    this.acts.change(selected, turned.inPicture(now), "keys");
    return true;
  }

  groupOf(index) {
    return this.overlay.querySelectorAll("g:not(.draft)")[index];
  }

  /** The index of the rectangle that has the keys, where these edits have one, or -1. */
  withKeys(edits) {
    const index = this.overlay.contains(document.activeElement) ? indexOf(document.activeElement) : -1;
    return edits[index] && isOnStage(edits[index]) ? index : -1;
  }

  /** Gives the keys to a rectangle. */
  focus(index) {
    this.groupOf(index)?.focus();
  }
}

function newGroup(overlay, index) {
  const group = addDrawn(overlay, "g", { tabindex: 0, role: "button", "data-index": index });
  addDrawn(group, "rect", { class: "under" });
  addDrawn(group, "rect", { class: "over" });
  addDrawn(group, "path", { class: "dim", "fill-rule": "evenodd" });
  addDrawn(group, "path", { class: "uncovers" });
  addDrawn(group, "text", { class: "number" });
  CORNERS.forEach((it) => addDrawn(group, "rect", { class: "handle", "data-corner": it }));
  return group;
}

function indexOf(element) {
  return Number(element.closest("g")?.dataset.index ?? -1);
}

/** An edge beside another one, so that a rectangle keeps a pixel. */
function awayFrom(edge, most) {
  return edge < most ? edge + 1 : edge - 1;
}

/** The parts of a rectangle that another one leaves, as a path of rectangles. */
function outlineWithout(old, now) {
  const [right, bottom] = [old.left + old.width, old.top + old.height];
  const left = Math.max(old.left, now.left), end = Math.min(right, now.left + now.width);
  const top = Math.max(old.top, now.top), low = Math.min(bottom, now.top + now.height);
  const box = (x, y, xEnd, yEnd) => (xEnd > x && yEnd > y ? `M${x} ${y}H${xEnd}V${yEnd}H${x}Z` : "");
  if (end <= left || low <= top) {
    return box(old.left, old.top, right, bottom);
  }
  return box(old.left, old.top, right, top) + box(old.left, low, right, bottom)
    + box(old.left, top, left, low) + box(end, top, right, low);
}

/** A rectangle moved by so much, and kept inside a picture of this size. */
function shifted({ left, top, width, height }, dx, dy, wide, high) {
  const inside = (value, most) => Math.min(Math.max(value, 0), Math.max(most, 0));
  return {
    left: inside(left + dx, wide - width), top: inside(top + dy, high - height), width, height
  };
}

/** A rectangle whose right and lower edge are moved by so much; at least one pixel is left. */
function resized({ left, top, width, height }, dx, dy, wide, high) {
  const inside = (value, most) => Math.min(Math.max(value, 1), Math.max(most, 1));
  return {
    left, top, width: inside(width + dx, wide - left), height: inside(height + dy, high - top)
  };
}
