// What is shown again: covers that were moved, made smaller or deleted since they were drawn.
//
// Each cover has a number of its own, `id`, and in `drawn` the form in which it was drawn. Where it becomes larger, that
// is its form from then on.

import { common, contains, covers, partsOf, textOf } from "./edits.js";
import { plural, wordsOf } from "./words.js";

let count = 0;

/** The same edits, where each cover has a number of its own, and the form in which it was drawn. */
export function known(edits) {
  return edits.map((it) => {
    if (!covers(it)) {
      return it;
    }
    const isWhole = !it.drawn || contains(it, it.drawn);
    return { ...it, id: it.id ?? (count += 1), drawn: isWhole ? formOf(it) : it.drawn };
  });
}

/** The same edits, as if each cover were drawn as it is now: so it is once they are saved. */
export function settled(edits) {
  return known(edits.map((it) => ({ ...it, drawn: undefined })));
}

/** Edits of a text, where those that another list has too are the same covers. */
export function recognized(edits, earlier) {
  const left = earlier.filter((it) => !edits.includes(it));
  return edits.map((edit) => {
    const at = earlier.includes(edit) ? -1 : left.findIndex((it) => textOf(it) === textOf(edit));
    return at < 0 ? edit : { ...left.splice(at, 1)[0], line: edit.line };
  });
}

/** The covers that a list has lost: those before, and those that another list had. `how` says by what. */
export function lostAfter(lost, before, edits, how) {
  const has = (id) => edits.some((it) => covers(it) && it.id === id);
  const gone = before.flatMap((it, index) => (covers(it) ? [{ id: it.id, form: it.drawn, index, how }] : []));
  // (a text may say the same in another way)
  const isCovered = ({ form, how: why }) => why === BY_TEXT && edits.some((it) => covers(it) && !it.parts && contains(it, form));
  return [...lost, ...gone].filter((it) => !has(it.id) && !isCovered(it));
}

/** Each cover that was changed, in words, with the form to which a button brings it back, and where it is in the list. */
export function lossesOf(edits, lost, seen) {
  const changed = edits.flatMap((it, index) => (covers(it) && !contains(it, it.drawn)
    ? [{ id: it.id, form: it.drawn, index, isThere: true, name: `Cover ${index + 1}`, how: changeOf(it) }] : []));
  const gone = lost.map((it) => ({ ...it, name: `The former cover ${it.index + 1} (${wordsOf(seen(it.form))})` }));
  return [...changed, ...gone].map((it) => ({ ...it, pixels: shownOf(it.form, edits) }))
    .filter(({ pixels, how }) => pixels > 0 || how !== BY_TEXT)
    .map((it) => ({ ...it, words: `${it.name} was ${it.how}: ${pixelsInWords(it.pixels)} shown again.` }));
}

/** How a cover is lost by another text. */
export const BY_TEXT = "removed in the text";

/** What happened to a cover that isn't as it was drawn. */
function changeOf({ drawn, ...now }) {
  if (now.width === drawn.width && now.height === drawn.height) {
    return "moved";
  }
  return contains(drawn, now) ? "made smaller" : "moved and resized";
}

function pixelsInWords(pixels) {
  return pixels === 0 ? "no pixel is" : `${plural(pixels, "pixel")} ${pixels === 1 ? "is" : "are"}`;
}

/** What an edit itself says, without what the page knows of it. */
function formOf({ id, drawn, line, ...form }) {
  return form;
}

/** How many pixels of a form no cover of a list covers, and no crop leaves out. */
export function shownOf(form, edits) {
  const crop = edits.find((it) => it.word === "crop") ?? form;
  const left = partsOf(form).map((it) => common(it, crop)).filter(Boolean);
  return edits.filter(covers).flatMap(partsOf).reduce((parts, it) => parts.flatMap((part) => without(part, it)), left)
    .reduce((sum, { width, height }) => sum + width * height, 0);
}

/** What of a rectangle is outside another one, as rectangles. */
function without(rectangle, other) {
  const hole = common(rectangle, other);
  if (!hole) {
    return [rectangle];
  }
  const { left, top, width, height } = rectangle;
  const below = hole.top + hole.height, after = hole.left + hole.width;
  return [
    { left, top, width, height: hole.top - top }, { left, top: below, width, height: top + height - below },
    { left, top: hole.top, width: hole.left - left, height: hole.height },
    { left: after, top: hole.top, width: left + width - after, height: hole.height },
  ].filter((it) => it.width > 0 && it.height > 0);
}
