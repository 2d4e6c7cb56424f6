// Edits and their text, in the words of docs/FRAMES.md.

import { isNumber } from "./common.js";
import { orients, turnOf } from "./orientation.js";
import { hidesNothing, isMosaic } from "./tile.js";

const ONE_SIZE = "at most one crop or pad is allowed, and it must come last, or before turns and flips.";
const TURNS_LAST = "on this page turns and flips must come last.";
const RANGE = /^[0-9]*\.\.[0-9]*$/;
const COMMENT = /#.*/, GAPS = /[ \t]+/;
// What a cover is larger by on each side, in pixels, and its brightness: where the line has no such number.
const MARGIN = 2, BLACK = 16;
const WORDS = {
  cover: "cover L,T,W,H, with or without +M and V",
  fill: "fill L,T,W,H V or fill L,T,W,H R,G,B",
  means: "means L,T,W,H TW,TH",
  mosaic: "mosaic L,T,W,H TW,TH",
  move: "move L,T,W,H X,Y",
  crop: "crop L,T,W,H",
  pad: "pad L,T,R,B V",
  turn: "turn right, turn half or turn left",
  flip: "flip rows or flip columns",
};

/** A line that is no edit, or an edit that can't be carried out: its number, from 1, and why. */
export class BadEdit extends Error {
  constructor(line, why) {
    super(`Line ${line}: ${why}`);
    this.line = line;
  }
}

/** Whether an edit gives the picture another size. */
export function resizes(edit) {
  return edit.word === "crop" || edit.word === "pad";
}

/** A list with one more edit, which is before what has to come later, and its index. A crop or a pad takes the place of another. */
export function withEdit(edits, edit) {
  const others = resizes(edit) ? edits.filter((it) => !resizes(it)) : edits;
  const index = others.filter((it) => rank(it) <= rank(edit)).length;
  return { edits: others.toSpliced(index, 0, edit), index };
}

/** What comes last in a list has the highest: turns and flips, and before them a crop or a pad. */
function rank(edit) {
  return orients(edit) ? 2 : Number(resizes(edit));
}

/** Whether an edit covers what was there. */
export function covers(edit) {
  return ["fill", "brush"].includes(edit.word) || isMosaic(edit);
}

/** The rectangles that a cover fills. */
export function partsOf(edit) {
  return edit.parts ?? [edit];
}

/** What of a rectangle is inside another one, or null. */
export function common(one, other) {
  const [left, top] = [Math.max(one.left, other.left), Math.max(one.top, other.top)];
  const width = Math.min(one.left + one.width, other.left + other.width) - left;
  const height = Math.min(one.top + one.height, other.top + other.height) - top;
  return width > 0 && height > 0 ? { left, top, width, height } : null;
}

/** Whether a rectangle has all pixels of another one. */
export function contains(outer, inner) {
  const both = common(outer, inner);
  return both !== null && both.width === inner.width && both.height === inner.height;
}

/** Whether a pixel of a cover is in the saved file: a crop may leave all of them out. */
export function isInFile(edit, edits) {
  const crop = edits.find((it) => it.word === "crop");
  return !crop || partsOf(edit).some((it) => common(it, crop));
}

/** Why a cover would hide nothing at all, or a crop leave nothing: else no words. */
export function futility(edit) {
  const isCrop = edit.word === "crop";
  const zero = (isCrop || covers(edit)) && ["width", "height"].find((it) => Number(edit[it]) === 0);
  if (zero) {
    return `The ${zero} is 0: nothing would be ${isCrop ? "left" : "covered"}. It is at least 1.`;
  }
  return hidesNothing(edit) ? "A mosaic with tiles of 1 by 1 hides nothing." : "";
}

/** An edit as a line, or a stroke of the brush as lines: fills of its parts. */
export function textOf(edit) {
  const { word, left, top, width, height } = edit;
  if (orients(edit)) {
    return `${word} ${edit.to}`;
  }
  if (word === "brush") {
    return edit.parts.map((it) => textOf({ ...it, word: "fill", colour: edit.colour })).join("\n");
  }
  if (word === "pad") {
    return `pad ${left},${top},${edit.right},${edit.bottom} ${edit.colour[0]}`;
  }
  const [red, green, blue] = edit.colour ?? [];
  const last = {
    fill: red === green && green === blue ? `${red}` : `${red},${green},${blue}`,
    means: `${edit.tileWidth},${edit.tileHeight}`,
    mosaic: `${edit.tileWidth},${edit.tileHeight}`,
    move: `${edit.x},${edit.y}`,
  }[word];
  return [
    word, `${left},${top},${width},${height}`, ...(last === undefined ? [] : [last])
  ].join(" ");
}

// (where the lines of an earlier list's stroke are in the text, the stroke stays one edit)

/** The edits of a text with one edit on each line, for a picture of this size. Comments and empty lines are ignored. */
export function editsOf(text, size, earlier = []) {
  const edits = [], lines = text.split("\n").map((it) => it.replace(COMMENT, "").split(GAPS).filter(Boolean));
  const strokes = earlier.filter((it) => it.word === "brush").map((edit) => ({ edit, lines: textOf(edit).split("\n") }));
  for (let index = 0; index < lines.length; index += 1) {
    const number = index + 1, stroke = strokes.findIndex((it) => it.lines.every((line, at) => lines[index + at]?.join(" ") === line));
    const [whole] = stroke < 0 ? [] : strokes.splice(stroke, 1);
    if (lines[index].length > 0) {
      const edit = whole?.edit ?? { ...editOf(lines[index], number, size), line: number }, last = edits.at(-1);
      if (last && (rank(last) > rank(edit) || (resizes(last) && resizes(edit)))) {
        throw new BadEdit(number, resizes(last) ? ONE_SIZE : TURNS_LAST);
      }
      edits.push(edit);
      index += whole ? whole.lines.length - 1 : 0;
    }
  }
  return edits;
}

function editOf([word, ...fields], number, size) {
  if (RANGE.test(word)) {
    throw new BadEdit(number, `a picture has one frame, so leave out the range ${word}.`);
  }
  const form = Object.hasOwn(WORDS, word) && WORDS[word];
  if (!form) {
    throw new BadEdit(
      number, `an edit begins with ${Object.keys(WORDS).join(", ")}, and not with '${word}'.`
    );
  }
  const edit = word === "cover" ? cover(fields) : plain(word, fields);
  if (!edit) {
    throw new BadEdit(number, `'${[word, ...fields].join(" ")}' is not of the form ${form}.`);
  }
  if (word === "cover") {
    const fill = filled(edit, size);
    if (!fill) {
      throw new BadEdit(number, "the cover has no pixel in the picture.");
    }
    return fill;
  }
  const why = futility(edit);
  if (why) {
    throw new BadEdit(number, why);
  }
  return edit;
}

/** The edit of a line that is no cover, or null. */
function plain(word, fields) {
  if (word === "turn" || word === "flip") {
    return fields.length === 1 ? turnOf(word, fields[0]) : null;
  }
  const lists = fields.map(numbersOf);
  return lists.every(Boolean) && made(word, lists);
}

/** A cover, with its margin and its colour, or null. */
function cover([place = "", value = `${BLACK}`, ...more]) {
  const [window, margin = `${MARGIN}`, ...rest] = place.split("+");
  const [edges, margins] = [window, margin].map(numbersOf);
  const isOne = margins?.length === 1 && rest.length + more.length === 0;
  const edit = isOne && value.split(",").length === 1 && plain("fill", [window, value]);
  return edit && edges ? { ...edit, margin: margins[0] } : null;
}

/** A cover as the fill that it is in a picture of this size, or null where it is outside. */
function filled({ margin, ...edit }, size) {
  const [left, width] = along(edit.left, edit.width, margin, size.width);
  const [top, height] = along(edit.top, edit.height, margin, size.height);
  return width > 0 && height > 0 ? { ...edit, left, top, width, height } : null;
}

/** Where a cover begins in one direction, and how many pixels it has, of so many. */
function along(start, count, margin, pixels) {
  const [from, length, more, most] = [start, count, margin, pixels].map(BigInt);
  const begin = from > more ? from - more : 0n, end = from + length + more;
  return [Number(begin), Number((end < most ? end : most) - begin)];
}

/** The numbers of a field, or null where it has another form. */
function numbersOf(field) {
  const parts = field.split(",");
  if (!parts.every((it) => isNumber(it))) {
    return null;
  }
  // (a number that JavaScript can't hold exactly stays a BigInt)
  return parts.map((it) => (Number.isSafeInteger(Number(it)) ? Number(it) : BigInt(it)));
}

function made(word, [window, last, ...more]) {
  if (window?.length !== 4 || more.length > 0 || (word === "crop") !== (last === undefined)) {
    return null;
  }
  const [left, top, width, height] = window;
  const rectangle = { word, left, top, width, height };
  const isPair = last?.length === 2;
  switch (word) {
    case "fill": {
      const colour = last.length === 1 ? [last[0], last[0], last[0]] : last;
      return colour.length === 3 && colour.every((it) => it <= 255) ? {
        ...rectangle, colour
      } : null;
    }
    case "means":
    case "mosaic":
      return isPair ? { ...rectangle, tileWidth: last[0], tileHeight: last[1] } : null;
    case "move":
      return isPair ? { ...rectangle, x: last[0], y: last[1] } : null;
    case "pad": {
      const isGrey = last.length === 1 && last[0] <= 255;
      const colour = [last[0], last[0], last[0]];
      return isGrey ? { word, left, top, right: width, bottom: height, colour } : null;
    }
    default:
      return rectangle;
  }
}
