// The proved calls of the library (docs/C.md, include/imgref.h), over the memory of the module.
//
// An image is where its cells begin in that memory, their number, a width, a height and a stride. A
// window is its corner and its size. All numbers go to the module as BigInt of 64 bits.

import { MODULE } from "./module.js";

/** What each status says to a person, in the order of include/imgref.h. */
export const STATUS_WORDS = [
  "Done.",
  "These numbers are no image.",
  "The rectangle reaches outside the picture.",
  "The two rectangles differ in size.",
  "There is no pixel in that column and row.",
  "A tile needs at least one column and one row.",
];
export const [
  DONE, NOT_AN_IMAGE, WINDOW_OUTSIDE, SIZES_DIFFER, PLACE_OUTSIDE, NO_TILE
] = STATUS_WORDS.keys();

const PAGE = 65536;
// What calls read and write through pointers: two windows, two numbers and one cell.
const FROM = 0, TO = 32, START = 64, COUNT = 72, CELL = 80, SCRATCH = 96;

/** A call that the module refused: nothing has changed. */
export class Refused extends Error {
  constructor(status) {
    super(STATUS_WORDS[status]);
    this.status = status;
  }
}

/** The browser has no 64-bit WebAssembly memories. */
export class NoMemory64 extends Error {}

/** A library with a memory of its own, from the module that the page holds. */
export async function makeLibrary() {
  let module;
  try {
    const packed = Uint8Array.from(atob(MODULE), (it) => it.charCodeAt(0));
    const whole = new Blob([packed]).stream().pipeThrough(new DecompressionStream("gzip"));
    module = await WebAssembly.compile(await new Response(whole).arrayBuffer());
  } catch (why) {
    throw new NoMemory64(why.message);
  }
  // (the module imports nothing)
  return new Library((await WebAssembly.instantiate(module, {})).exports);
}

export class Library {
  constructor(exports) {
    this.calls = exports;
    this.memory = exports.memory;
    // (what the page adds to the memory is the page's: the module never uses it)
    this.scratch = this.memory.buffer.byteLength;
    this.top = this.scratch;
    this.take(SCRATCH);
  }

  /** So many bytes of the memory, at the top of what is taken: where they begin. */
  take(bytes) {
    const at = this.top, end = at + Math.ceil(bytes / 8) * 8;
    const missing = end - this.memory.buffer.byteLength;
    if (missing > 0) {
      try {
        this.memory.grow(BigInt(Math.ceil(missing / PAGE)));
      } catch {
        throw new Error("There is not enough memory for this picture.");
      }
    }
    this.top = end;
    return at;
  }

  /** Gives back all that was taken from here on. */
  release(at) {
    this.top = at;
  }

  /** The bytes from an address on. The view is good until the next `take`. */
  bytes(at, count) {
    return new Uint8ClampedArray(this.memory.buffer, at, count);
  }

  /** Writes a window where the module reads it. */
  windowAt(place, window) {
    const view = new DataView(this.memory.buffer, this.scratch + place, 32);
    [window.left, window.top, window.width, window.height].forEach((it, index) => {
      view.setBigUint64(8 * index, BigInt(it), true);
    });
    return BigInt(this.scratch + place);
  }

  /** Calls a function for cells of so many bits, and throws its status where it isn't 0. */
  run(name, ...words) {
    const status = this.calls[name](...words);
    if (status !== DONE) {
      throw new Refused(status);
    }
  }

  isImage(count, width, height, stride) {
    return Boolean(this.calls.imgref_is_image(...numbers(count, width, height, stride)));
  }

  hasWindow(width, height, window) {
    return Boolean(
      this.calls.imgref_has_window(...numbers(width, height), this.windowAt(FROM, window))
    );
  }

  /** A window of an image, as an image of its own over the same cells. */
  part(image, window) {
    const [start, count] = [START, COUNT].map((it) => BigInt(this.scratch + it));
    const shape = numbers(image.count, image.width, image.height, image.stride);
    this.run("imgref_window", ...shape, this.windowAt(FROM, window), start, count);
    const view = new DataView(this.memory.buffer, this.scratch, SCRATCH);
    const first = Number(view.getBigUint64(START, true));
    return {
      at: image.at + first * (image.bits / 8),
      count: Number(view.getBigUint64(COUNT, true)),
      width: window.width, height: window.height, stride: image.stride, bits: image.bits,
    };
  }

  fill(image, window, value) {
    this.run(
      `imgref_u${image.bits}_fill_window`, ...cells(image), this.windowAt(FROM, window), value
    );
  }

  mosaic(image, window, tileWidth, tileHeight) {
    const tile = numbers(tileWidth, tileHeight);
    this.run(`imgref_u${image.bits}_mosaic`, ...cells(image), this.windowAt(FROM, window), ...tile);
  }

  /** Each tile gets the mean of its pixels, byte by byte. */
  means(image, window, tileWidth, tileHeight) {
    const channels = image.bits / 8, tile = numbers(tileWidth, tileHeight);
    const bytes = { ...image, count: channels * image.count, stride: channels * image.stride };
    this.run(
      "imgref_u8_mosaic_means", ...cells(bytes), BigInt(channels), this.windowAt(FROM, window), ...tile
    );
  }

  move(image, from, to) {
    const windows = [this.windowAt(FROM, from), this.windowAt(TO, to)];
    this.run(`imgref_u${image.bits}_move_window`, ...cells(image), ...windows);
  }

  /** All pixels of another picture, turned clockwise by so many quarters. */
  turn(image, source, quarters) {
    this.run("imgref_u32_turn_into", ...cells(image), 1n, ...cells(source), quarters);
  }

  /** Mirrors all of a picture: its `rows` or its `columns` change places. */
  flip(image, which) {
    const whole = this.windowAt(FROM, { left: 0, top: 0, width: image.width, height: image.height });
    this.run(which === "rows" ? "imgref_u32_flip_rows" : "imgref_u32_flip_columns", ...cells(image), 1n, whole);
  }

  copy(image, window, source) {
    const to = this.windowAt(FROM, window);
    this.run(`imgref_u${image.bits}_copy_window`, ...cells(image), to, ...cells(source));
  }

  pack(image) {
    this.run(`imgref_u${image.bits}_pack`, ...cells(image));
  }

  put(image, x, y, value) {
    this.run(`imgref_u${image.bits}_put`, ...cells(image), ...numbers(x, y), value);
  }

  get(image, x, y) {
    this.run(
      `imgref_u${image.bits}_get`, ...cells(image), ...numbers(x, y), BigInt(this.scratch + CELL)
    );
    const view = new DataView(this.memory.buffer, this.scratch + CELL, 8);
    return image.bits === 8 ? view.getUint8(0) : view.getUint32(0, true);
  }

  equal(image, other) {
    const found = BigInt(this.scratch + CELL);
    this.run(`imgref_u${image.bits}_equal`, ...cells(image), ...cells(other), found);
    return this.bytes(this.scratch + CELL, 1)[0] !== 0;
  }
}

function numbers(...all) {
  return all.map(BigInt);
}

function cells(image) {
  return numbers(image.at, image.count, image.width, image.height, image.stride);
}
