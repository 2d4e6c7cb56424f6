// The picture with its edits: added, changed, taken back, and shown.

import { find } from "./common.js";
import { asked } from "./ask.js";
import { Draft } from "./draft.js";
import { BadEdit, covers, editsOf, futility, resizes, textOf, withEdit } from "./edits.js";
import { BY_TEXT, known, lossesOf, lostAfter, recognized, settled } from "./losses.js";
import { Opener } from "./open.js";
import { Turned, orientationOf, orients, shortest, turnOf } from "./orientation.js";
import { Saver } from "./save.js";
import { renderList, renderLosses, renderSelected } from "./list.js";
import { Stage } from "./stage.js";
import { isMosaic, tileSide, weakness } from "./tile.js";
import { colourOf, renderTools, toolOf } from "./tools.js";
import { coversInWords } from "./words.js";

// Changes by keys within this time are undone together, in milliseconds.
const TOGETHER = 1000;
const LATE =
  "Note: a move comes before a fill or a mosaic. It may carry pixels out of what is covered.";
const UNAPPLIED = "The text of the edits has changes that aren't applied. Apply them first?";
const HOLD_STILL = "Hold a finger still for a moment, then draw. Two fingers zoom.";
const FOR_A_PICTURE = [
  "save", "add", "apply", "copy", "smaller", "larger", "fit", "actual", "turn-left", "turn-right", "mirror",
];

/** What a person sees and does on the page. */
export class PicturePage {
  constructor(library) {
    Object.assign(this, { library, draft: new Draft(), faults: 0 });
    this.forget();
    this.stage = new Stage({
      draw: (it) => this.draw(it),
      change: (index, it, by) => this.change(index, it, by),
      select: (index) => this.select(index),
      remove: (index) => this.remove(index),
      swipe: () => this.say(HOLD_STILL),
      isOpen: () => this.pixels !== null,
    }, toolOf);
    this.opener = new Opener(this);
    this.saver = new Saver(this);
  }

  /** No picture, and no edits. */
  forget() {
    if (this.pixels) {
      this.draft.put([]);
    }
    this.pixels?.end();
    Object.assign(this, { pixels: null, edits: [], lost: [], losses: [], past: [], future: [] });
    Object.assign(this, { selected: -1, byKeys: -Infinity, kept: "" });
  }

  say(text, isProblem = false) {
    find("status").textContent = text;
    find("status").classList.toggle("problem", isProblem);
    this.faults += isProblem;
  }

  /** Whether edits would be lost with the page. */
  get isUnsaved() {
    return this.isListUnsaved || this.hasDraft;
  }

  /** The same of the list alone. */
  get isListUnsaved() {
    return this.edits.length > 0 && this.kept !== this.text;
  }

  /** Whether a person typed edits as text that aren't applied. */
  get hasDraft() {
    return this.pixels !== null && this.draft.isOpen;
  }

  /** All that would be lost with the page, as a text. */
  get state() {
    return `${this.text}\n${find("text").value}`;
  }

  /** The edits as text. */
  get text() {
    return this.edits.map((it) => `${textOf(it)}\n`).join("");
  }

  /** What is seen: rectangles as they are on the screen. */
  get turned() {
    return this.stage.view.turned;
  }

  // (`how` says what happened to a cover that they lack)

  /** Shows other edits, and keeps the old ones for undo. Whether they can be carried out. */
  commit(edits, { by = "", how = "deleted" } = {}) {
    const began = performance.now();
    if (!this.show(edits)) {
      return false;
    }
    const isTogether = by === "keys" && began - this.byKeys < TOGETHER;
    this.byKeys = by === "keys" ? began : -Infinity;
    if (!isTogether) {
      this.past.push({ edits: this.edits, lost: this.lost });
    }
    // (from here on the number of an edit is its line)
    const next = known(edits.map((it) => ({ ...it, line: undefined })));
    this.lost = lostAfter(this.lost, this.edits, next, how);
    [this.edits, this.future] = [next, []];
    this.compare();
    this.selected = Math.min(this.selected, edits.length - 1);
    this.render();
    return true;
  }

  show(edits) {
    try {
      const changed = this.pixels.show(edits);
      this.stage.put(this.pixels.bytes(), changed);
    } catch (why) {
      const { width, height } = this.pixels;
      this.stage.put(this.pixels.bytes(), [{ left: 0, top: 0, width, height }]);
      this.say(why.message, true);
      return false;
    }
    this.say("Done.");
    return true;
  }

  /** Finds which covers are no longer what they were, and a move that may carry pixels out of a cover. */
  compare() {
    const late = this.edits.findIndex((it) => it.word === "move");
    const isLate = late >= 0 && this.edits.slice(late).some(covers);
    const turned = new Turned(orientationOf(this.edits), this.pixels.width, this.pixels.height);
    this.losses = [...lossesOf(this.edits, this.lost, (it) => turned.seen(it)), ...(isLate ? [{ words: LATE }] : [])];
  }

  /** The losses in words, for a line of text. */
  get lossesInWords() {
    return this.losses.map((it) => it.words).join(" ");
  }

  /** Brings a cover back to what it was. */
  bringBack({ id, form, index, isThere }) {
    const edit = { ...form, id };
    this.selected = -1;
    const place = Math.min(index, withEdit(this.edits, edit).index);
    if (this.commit(isThere ? this.edits.with(index, edit) : this.edits.toSpliced(place, 0, edit))) {
      this.say("It is back.");
    }
  }

  /** The edits are with the browser as a file: from here on each cover is what it is now. */
  settle() {
    [this.edits, this.lost, this.losses, this.kept] = [settled(this.edits), [], [], this.text];
  }

  /** Ends what is typed in a field of the selected edit, as a click elsewhere does. Whether nothing of it was refused. */
  endTyping() {
    const field = document.activeElement, { faults } = this;
    if (find("selected").contains(field)) {
      field.blur();
      field.focus({ preventScroll: true });
    }
    return faults === this.faults;
  }

  /** Whether what a person typed is in the list, or may be left out of the file. */
  async endAllTyping() {
    if (!this.endTyping()) {
      return false;
    }
    const way = this.hasDraft ? await asked(UNAPPLIED, "Apply the text", "Go on without it") : "discard";
    return way === "discard" || (way === "keep" && this.applyText());
  }

  step(from, to) {
    if (from.length > 0 && this.show(from.at(-1).edits)) {
      to.push({ edits: this.edits, lost: this.lost });
      Object.assign(this, from.pop());
      [this.selected, this.byKeys] = [this.stage.withKeys(this.edits), -Infinity];
      this.compare();
      this.render();
      this.say(from === this.past ? "Undone." : "Redone.");
    }
  }

  undo() {
    this.step(this.past, this.future);
  }

  redo() {
    this.step(this.future, this.past);
  }

  /** The edit that a tool makes at a rectangle or along a stroke, by the fields of the tools. */
  made(shape, word = toolOf()) {
    const { left, top, width, height } = shape, edit = { word, left, top, width, height };
    switch (word) {
      case "fill":
        return { ...edit, colour: colourOf("colour") };
      case "brush":
        return { ...edit, colour: colourOf("colour"), parts: shape.parts };
      case "mosaic": {
        const side = tileSide(shape, this.pixels);
        const [tileWidth, tileHeight] = ["tile-width", "tile-height"].map(
          (it) => (find(it).value === "" ? side : Math.floor(find(it).valueAsNumber) || 0)
        );
        // (a tile that nobody typed follows its rectangle)
        const isOwn = find("tile-width").value + find("tile-height").value !== "";
        return { ...edit, word: "means", tileWidth, tileHeight, isOwn };
      }
      default:
        return edit;
    }
  }

  /** Adds an edit at a rectangle or along a stroke, and returns its index. */
  add(shape, word) {
    const edit = this.made(shape, word), why = futility(edit);
    if (why) {
      this.say(why, true);
      return -1;
    }
    const { edits, index } = withEdit(this.edits, edit);
    if (!this.commit(edits)) {
      return -1;
    }
    const weak = weakness(edit, this.pixels);
    if (weak) {
      this.say(weak, true);
    }
    return index;
  }

  /** Adds what was drawn. Nothing is selected then: so no key changes it. */
  draw(shape) {
    this.add(shape);
    this.select(-1);
  }

  /** Adds a rectangle in the middle, and gives the keys to it. */
  addInMiddle() {
    const { width, height } = this.pixels;
    const [wide, high] = [Math.ceil(width / 4), Math.ceil(height / 4)];
    const word = ["brush", "select"].includes(toolOf()) ? "fill" : toolOf();
    const index = this.add({ left: (width - wide) >> 1, top: (height - high) >> 1, width: wide, height: high }, word);
    this.select(index);
    this.stage.focus(index);
  }

  /** Gives an edit another rectangle, colour or tile. */
  change(index, values, by) {
    const edit = { ...this.edits[index], ...values }, why = futility(edit);
    if (isMosaic(edit) && edit.isOwn === false) {
      edit.tileWidth = edit.tileHeight = tileSide(edit, this.pixels);
    }
    if (why) {
      this.say(why, true);
    } else if (textOf(edit) !== textOf(this.edits[index])) {
      const isDone = this.commit(this.edits.with(index, edit), { by });
      const loss = this.losses.find((it) => it.isThere && it.index === index);
      if (isDone && loss) {
        this.say(loss.words);
      }
    }
    this.render();
  }

  /** Gives the selected edit other numbers, as they are seen. */
  changeSeen(values) {
    const edit = this.edits[this.selected];
    this.change(this.selected, this.turned.unseen({ ...this.turned.seen(edit), ...values }));
  }

  /** Turns or mirrors the whole picture, after all that its list has. */
  orient(word, to) {
    const turns = shortest([...this.edits, turnOf(word, to)]);
    this.commit([...this.edits.filter((it) => !orients(it)), ...turns]);
  }

  /** Makes the selected rectangle a cover or a crop of another kind. */
  changeKind(word) {
    const { selected } = this, old = this.edits[selected], why = futility(this.made(old, word));
    // (it stays the same cover)
    const edit = { ...this.made(old, word), id: old.id, drawn: old.drawn };
    const others = this.edits.toSpliced(selected, 1);
    const { edits, index } = resizes(edit) || resizes(old)
      ? withEdit(others, edit) : { edits: others.toSpliced(selected, 0, edit), index: selected };
    if (why) {
      this.say(why, true);
    } else if (this.commit(edits, { how: `changed to a ${word}` })) {
      this.selected = index;
    }
    this.render();
  }

  remove(index) {
    this.selected = -1;
    if (this.commit(this.edits.toSpliced(index, 1))) {
      this.sayLast();
    }
  }

  /** Says which cover was lost last. */
  sayLast() {
    const loss = this.losses.findLast((it) => it.id !== undefined && !it.isThere);
    if (loss) {
      this.say(loss.words);
    }
  }

  select(index) {
    if (index !== this.selected) {
      // (keys on another rectangle are undone by themselves)
      this.byKeys = -Infinity;
    }
    this.selected = this.edits[index] ? index : -1;
    this.render();
  }

  /** Selects nothing, and takes the keys from a rectangle. */
  leave() {
    if (this.stage.overlay.contains(document.activeElement)) {
      this.stage.stage.focus({ preventScroll: true });
    }
    this.select(-1);
  }

  /** The edits of the text in the place of the present ones. Whether they are carried out. */
  applyText() {
    try {
      const typed = recognized(editsOf(find("text").value, this.pixels, this.edits), this.edits);
      this.selected = -1;
      const isDone = this.commit(this.draft.withLater(typed, this.edits), { how: BY_TEXT });
      if (isDone) {
        this.draft.put(this.edits);
      }
      return isDone;
    } catch (why) {
      if (!(why instanceof BadEdit)) {
        throw why;
      }
      this.say(why.message, true);
      return false;
    }
  }

  async copyText() {
    find("text").select();
    try {
      await navigator.clipboard.writeText(find("text").value);
      this.say("Copied.");
    } catch {
      this.say("The text is selected: copy it with Ctrl+C.");
    }
  }

  render() {
    const { edits, selected, pixels } = this;
    this.stage.render(edits, selected, edits.filter((it) => isMosaic(it) && weakness(it, pixels)));
    find("undo").disabled = this.past.length === 0;
    find("redo").disabled = this.future.length === 0;
    for (const it of FOR_A_PICTURE) {
      find(it).disabled = !pixels;
    }
    renderTools(pixels);
    const seen = (edit) => edit && this.turned.seen(edit);
    renderList(edits, selected, pixels, seen, (index) => this.select(index));
    renderSelected(edits[selected], pixels, seen, (word) => this.changeKind(word));
    find("covers").textContent = pixels ? coversInWords(edits) : "";
    renderLosses(find("losses"), this.losses, (it) => this.bringBack(it));
    this.draft.show(edits);
  }
}
