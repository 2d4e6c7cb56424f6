// The edits as text: what a person types stays until it is applied, and covers that are drawn meanwhile stay too.

import { find } from "./common.js";
import { covers, textOf, withEdit } from "./edits.js";
import { orients } from "./orientation.js";

export class Draft {
  constructor() {
    Object.assign(this, { shown: find("text").value, base: [] });
    find("text").addEventListener("input", () => this.tell());
  }

  /** Whether the text has changes that aren't applied. */
  get isOpen() {
    return find("text").value !== this.shown;
  }

  /** Shows the lines of these edits, except over a text that isn't applied. */
  show(edits) {
    if (!this.isOpen) {
      this.put(edits);
    }
    this.tell();
  }

  /** Shows the lines of these edits in the place of any text. */
  put(edits) {
    find("text").value = edits.map((it) => `${textOf(it)}\n`).join("");
    [this.shown, this.base] = [find("text").value, edits];
    this.tell();
  }

  /** Says whether the text is applied. */
  tell() {
    find("unapplied").hidden = !this.isOpen;
  }

  /** Edits of the text, with those that came into the list since a person began to type. */
  withLater(typed, now) {
    const has = (list, edit) => list.some((it) => (covers(edit) ? it.id === edit.id : textOf(it) === textOf(edit)));
    const later = now.filter((it) => !orients(it) && !has(this.base, it) && !has(typed, it));
    const turns = (list) => list.filter(orients), lines = (list) => list.map(textOf).join();
    const isTurnedLater = lines(turns(typed)) === lines(turns(this.base));
    const own = isTurnedLater ? [...typed.filter((it) => !orients(it)), ...turns(now)] : typed;
    return later.reduce((edits, it) => withEdit(edits, it).edits, own);
  }
}
