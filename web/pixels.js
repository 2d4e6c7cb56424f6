// A picture whose pixels are in the module's memory: as they were opened, and as the edits make them. Each change is a call
// of the module.
//
// An edit is taken back from what was opened: its rectangle is copied from there, and each other edit of that rectangle is
// carried out again. So the memory doesn't grow with the edits.

import { Refused, WINDOW_OUTSIDE } from "./calls.js";
import { BadEdit, common, contains, resizes, textOf } from "./edits.js";
import { orients } from "./orientation.js";

const MOST = 2n ** 32n;
const QUARTERS = { right: 1, half: 2, left: 3 };

/** A picture of so many columns and rows. */
export class Pixels {
  constructor(library, width, height) {
    this.library = library;
    this.begin = library.top;
    [this.image, this.opened] = [taken(library, width, height), taken(library, width, height)];
    this.applied = [];
  }

  /** The bytes in the memory are the picture as it was opened. */
  keep() {
    this.library.copy(this.opened, { left: 0, top: 0, width: this.width, height: this.height }, this.image);
  }

  get width() {
    return this.image.width;
  }

  get height() {
    return this.image.height;
  }

  /** The bytes red, green, blue and alpha of each pixel, row by row. */
  bytes() {
    return this.library.bytes(this.image.at, 4 * this.image.count);
  }

  /** Gives the memory back. */
  end() {
    this.library.release(this.begin);
  }

  /** Shows these edits, and returns what has changed: nothing, where one is refused. */
  show(edits) {
    const before = [...this.applied], same = commonLength(before, edits);
    const changed = this.takeBack(same);
    for (const [index, edit] of edits.entries()) {
      if (index < same) {
        continue;
      }
      try {
        changed.push(...this.apply(edit));
      } catch (why) {
        this.takeBack(same);
        before.slice(same).forEach((it) => this.apply(it));
        throw why instanceof Refused ? new BadEdit(edit.line ?? index + 1, why.message) : why;
      }
    }
    return outermost(changed);
  }

  /** Carries out one edit, and tells which rectangle it changed. */
  apply(edit) {
    if (resizes(edit)) {
      this.checkSize(edit);
    }
    const isInside = !resizes(edit) && !orients(edit);
    if (isInside) {
      this.change(edit);
    }
    this.applied.push(edit);
    return isInside ? [changedBy(edit)] : [];
  }

  /** The call of an edit. */
  change(edit) {
    switch (edit.word) {
      case "fill":
        return this.library.fill(this.image, edit, cellOf(edit.colour));
      case "brush":
        return edit.parts.forEach((it) => this.library.fill(this.image, it, cellOf(edit.colour)));
      case "means":
        return this.library.means(this.image, edit, edit.tileWidth, edit.tileHeight);
      case "mosaic":
        return this.library.mosaic(this.image, edit, edit.tileWidth, edit.tileHeight);
      default:
        return this.library.move(this.image, edit, changedBy(edit));
    }
  }

  /** Refuses a crop or a pad that leaves no pixel, or more than an image can have. */
  checkSize(edit) {
    const isCrop = edit.word === "crop";
    const { width, height } = sizeAfter(edit, this.image);
    const isInside = !isCrop || this.library.hasWindow(this.width, this.height, edit);
    if (!isInside || width === 0n || height === 0n || width >= MOST || height >= MOST) {
      throw new Refused(WINDOW_OUTSIDE);
    }
  }

  /** Takes all edits back but so many, and returns what has changed. */
  takeBack(count) {
    const changed = this.applied.splice(count).filter((it) => !resizes(it) && !orients(it)).map(changedBy);
    const again = this.closed(changed), places = outermost(changed);
    places.forEach((it) => this.library.copy(this.image, it, this.library.part(this.opened, it)));
    this.applied.filter((it) => again.has(it)).forEach((it) => this.change(it));
    return places;
  }

  /** The edits that read or write one of these rectangles. All that they read or write is added to the rectangles. */
  closed(places) {
    const found = new Set();
    // (the rectangles grow meanwhile)
    for (const place of places) {
      for (const it of this.applied) {
        if (!found.has(it) && usedBy(it).some((one) => common(one, place))) {
          found.add(it);
          places.push(...usedBy(it));
        }
      }
    }
    return found;
  }

  /** What is saved, after a crop or a pad, turns and flips: calls `use` with its bytes, width and height. */
  output(use) {
    const { library } = this, top = library.top;
    try {
      const made = this.applied.reduce((image, it) => this.after(it, image), this.image);
      return use(library.bytes(made.at, 4 * made.count), made.width, made.height);
    } finally {
      library.release(top);
    }
  }

  /** An image after an edit of the whole: a new one, at the top of the memory. Any other edit is in the picture already. */
  after(edit, image) {
    const { library } = this, { width, height } = image;
    if (!resizes(edit) && !orients(edit)) {
      return image;
    }
    const size = sizeAfter(edit, image), made = taken(library, Number(size.width), Number(size.height));
    const whole = { left: 0, top: 0, ...size };
    switch (edit.word) {
      case "crop":
        library.copy(made, whole, library.part(image, edit));
        break;
      case "pad":
        library.fill(made, whole, cellOf(edit.colour));
        library.copy(made, { ...edit, width, height }, image);
        break;
      case "turn":
        library.turn(made, image, QUARTERS[edit.to]);
        break;
      default:
        library.copy(made, whole, image);
        library.flip(made, edit.to);
    }
    return made;
  }
}

/** The size that an edit of the whole leaves. */
function sizeAfter(edit, image) {
  const sum = (...all) => all.map(BigInt).reduce((total, it) => total + it);
  const [width, height] = [sum(image.width), sum(image.height)];
  switch (edit.word) {
    case "crop":
      return { width: BigInt(edit.width), height: BigInt(edit.height) };
    case "pad":
      return { width: sum(edit.left, width, edit.right), height: sum(edit.top, height, edit.bottom) };
    default:
      return edit.word === "flip" || edit.to === "half" ? { width, height } : { width: height, height: width };
  }
}

/** Cells of four bytes for a picture of this size, at the top of the memory. */
function taken(library, width, height) {
  const count = width * height;
  return {
    at: library.take(4 * count), count, width, height, stride: Math.max(width, 1), bits: 32
  };
}

/** The rectangle that an edit writes. */
function changedBy({ word, left, top, width, height, x, y }) {
  return word === "move" ? { left: x, top: y, width, height } : { left, top, width, height };
}

/** The rectangles that an edit reads or writes. */
function usedBy(edit) {
  const { word, left, top, width, height } = edit;
  return resizes(edit) || orients(edit) ? [] : [changedBy(edit), ...(word === "move" ? [{ left, top, width, height }] : [])];
}

/** Rectangles without those that another one contains. */
function outermost(rectangles) {
  return rectangles.reduce((found, it) => (found.some((other) => contains(other, it)) ? found
    : [...found.filter((other) => !contains(it, other)), it]), []);
}

/** A colour as a cell: its bytes in memory are red, green, blue, and 255 for opaque. */
function cellOf([red, green, blue]) {
  return (red | (green << 8) | (blue << 16) | (255 << 24)) >>> 0;
}

/** With how many equal edits two lists begin. */
function commonLength(some, others) {
  const differs = some.findIndex(
    (it, index) => !others[index] || textOf(it) !== textOf(others[index])
  );
  return differs < 0 ? some.length : differs;
}
