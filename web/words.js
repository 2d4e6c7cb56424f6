// Edits in words, as a person reads them in the list and on buttons.

import { covers, isInFile } from "./edits.js";
import { isMosaic, showsPixels } from "./tile.js";

const COLOURS = {
  "0,0,0": "Black", "255,255,255": "White", "255,0,0": "Red", "0,255,0": "Green", "0,0,255": "Blue",
  "255,255,0": "Yellow",
};

/** An edit in words, such as 'Black, 604 by 560 at 10, 20'. */
export function wordsOf(edit) {
  const { word, left, top, width, height } = edit, place = `${width} by ${height} at ${left}, ${top}`;
  switch (word) {
    case "fill":
      return `${colourName(edit.colour)}, ${place}`;
    case "brush":
      return `${colourName(edit.colour)} brush, within ${place}`;
    case "means":
      return `Pixelated, ${edit.tileWidth} by ${edit.tileHeight}, ${place}`;
    case "mosaic":
      return `Mosaic of corners, ${edit.tileWidth} by ${edit.tileHeight}, ${place}`;
    case "move":
      return `Move of ${width} by ${height} from ${left}, ${top} to ${edit.x}, ${edit.y}`;
    case "turn":
      return edit.to === "half" ? "Turned by half" : `Turned ${edit.to}`;
    case "flip":
      return edit.to === "rows" ? "Mirrored, top to bottom" : "Mirrored, left to right";
    case "pad": {
      const sides = `${left} left, ${top} above, ${edit.right} right, ${edit.bottom} below`;
      return `Border: ${colourName(edit.colour)}, ${sides}`;
    }
    default:
      return `Crop to ${place}`;
  }
}

function colourName(colour) {
  const [red, green, blue] = colour;
  const grey = red === green && green === blue && `Grey ${red}`;
  return COLOURS[colour] ?? (grey || `Red ${red} green ${green} blue ${blue}`);
}

/** A number of things. */
export function plural(count, word) {
  return `${count} ${word}${count === 1 ? "" : "s"}`;
}

/** What the covers of a list hide, before it is saved: mosaics are named by their number in the list. */
export function coversInWords(edits) {
  const all = edits.filter(covers), inside = all.filter((it) => isInFile(it, edits));
  const numbers = (is) => edits.flatMap((it, index) => (inside.includes(it) && is(it) ? [index + 1] : []));
  const named = (words, them) => (them.length ? ` ${words}: ${them.length === 1 ? "mosaic" : "mosaics"} ${them.join(", ")}.` : "");
  const outside = all.length - inside.length, cut = outside ? ` Outside the crop: ${`${outside}`}.` : "";
  if (inside.length === 0) {
    return `Nothing is covered.${cut}`;
  }
  const hides = named("Not hidden for sure", numbers(isMosaic)) || " All are fills.";
  return `${plural(inside.length, "cover")}.${hides}${named("Shows single pixels", numbers(showsPixels))}${cut}`;
}

/** Names with commas, and 'and' before the last. */
export function listed(names) {
  return names.length < 2 ? names.join() : `${names.slice(0, -1).join(", ")} and ${names.at(-1)}`;
}
