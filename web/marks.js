// Where each cover is in the saved file, with its number in the list.

import { common, covers, partsOf } from "./edits.js";
import { Turned, orientationOf } from "./orientation.js";
import { isMosaic, weakness } from "./tile.js";

/** Each cover that has pixels in the file: its number, its rectangles there, and whether it hides them for sure. */
export function marksOf(edits, picture) {
  const frame = frameOf(edits, picture), turned = new Turned(orientationOf(edits), frame.width, frame.height);
  return edits.flatMap((edit, index) => {
    const parts = covers(edit) ? partsOf(edit).map((it) => common(it, frame)).filter(Boolean) : [];
    const moved = parts.map((it) => turned.onScreen({ ...it, left: it.left - frame.left, top: it.top - frame.top }));
    return moved.length ? [{ number: index + 1, parts: moved, isWeak: isMosaic(edit) && weakness(edit, picture) !== "" }] : [];
  });
}

/** Where the picture of the file is in the one that was opened, before turns and flips. */
function frameOf(edits, { width, height }) {
  const resized = edits.find((it) => it.word === "crop" || it.word === "pad");
  if (!resized) {
    return { left: 0, top: 0, width, height };
  }
  const { left, top } = resized;
  return resized.word === "crop" ? resized
    : { left: -left, top: -top, width: left + width + resized.right, height: top + height + resized.bottom };
}
