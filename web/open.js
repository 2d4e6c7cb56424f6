// Opening: one picture, or several one after the other. No edits are lost without a question.

import { asked, idle } from "./ask.js";
import { find } from "./common.js";
import { inspect } from "./metadata.js";
import { NOISE, givesPixels } from "./noise.js";
import { Pixels } from "./pixels.js";
import { plural } from "./words.js";

// What a canvas takes in each browser that has 64-bit memories.
const MOST_SIDE = 32767, MOST_PIXELS = 100e6;
const RESISTS = "In Firefox the setting privacy.resistFingerprinting does that. Nothing has changed.";
const TAKEN = "This page takes up to 32,767 pixels on a side, and 100 million in all.";

export class Opener {
  constructor(page) {
    Object.assign(this, { page, waiting: [], turn: null, file: null, given: null });
  }

  /** Opens the first of these files. The others come after it, and then those that waited before. */
  async openAll(files) {
    if (files.length > 0 && find("preview").open) {
      this.page.saver.tell(`${files[0].name} isn't opened below this. Press Back, and open it then.`);
    } else if (files.length > 0 && await this.mayLose(files[0].name)) {
      this.waiting = [...files.slice(1), ...(this.file ? [this.file] : []), ...this.waiting];
      await this.open(files[0]);
    }
  }

  /** Opens the next of several pictures. */
  async next() {
    if (this.waiting.length > 0 && !this.file && await this.mayLose(this.waiting[0].name)) {
      await this.open(this.waiting.shift());
    }
  }

  /** Whether all is saved, or a person gives it up. */
  async mayLose(name) {
    const { page } = this, { length } = page.edits;
    if (!page.isUnsaved || find("ask").open) {
      return !find("ask").open;
    }
    const text = page.hasDraft ? "The text has changes that aren't applied. " : "";
    const edits = page.isListUnsaved ? `${plural(length, "edit")} of ${page.name} ${length === 1 ? "isn't" : "aren't"} saved. ` : "";
    // (an earlier word counts no more: a browser may tell only later that the question is closed)
    this.given = null;
    return await asked(`${edits}${text}Open ${name} all the same?`) === "discard";
  }

  /** Opens a file. What is made while the browser decodes it isn't lost without a question. */
  async open(file) {
    const { page } = this, turn = (this.turn = {});
    [this.file, this.given] = [file, page.state];
    page.say(`Opening ${file.name} …`);
    this.render();
    const read = await readFile(file), why = read.why?.(file.name);
    if (turn === this.turn && !why) {
      // (a person may draw, or look at the file that would be saved)
      await idle(page.stage);
    }
    const isLast = () => turn === this.turn, isTaken = isLast() && !why && (page.state === this.given || await this.mayLose(file.name));
    if (isLast()) {
      this.file = null;
      if (why) {
        page.say(why, true);
      } else if (isTaken) {
        this.take(file.name, read.bitmap, read.found);
      } else {
        this.waiting.unshift(file);
        page.say(`${file.name} isn't opened: it comes next.`);
      }
      this.render();
    }
    read.bitmap?.close();
  }

  /** Takes a decoded picture into the module's memory, with what its file holds besides. */
  take(name, bitmap, found) {
    const { page } = this;
    page.forget();
    // (a name that a person wanted for one picture may be too much for the next)
    find("keep-name").checked = false;
    const { top } = page.library;
    try {
      const pixels = new Pixels(page.library, bitmap.width, bitmap.height);
      page.stage.read(bitmap, (data, at) => pixels.bytes().set(data, at));
      pixels.keep();
      Object.assign(page, { pixels, name, found });
      const size = `${pixels.width} by ${pixels.height} pixels`;
      page.say([`${name}: ${size}.`, ...found.lost, "Draw over what you want to cover."].join(" "));
    } catch (why) {
      page.library.release(top);
      page.say(why.message, true);
    }
    page.render();
  }

  render() {
    find("next-picture").hidden = this.waiting.length === 0;
    find("next-picture").disabled = this.file !== null;
    find("next-picture").textContent = `Next picture (${this.waiting.length} left)`;
  }
}

/** A file as the browser decodes it, with what it holds besides, or in words why there is no picture. */
async function readFile(file) {
  try {
    if (!await givesPixels()) {
      return { why: (name) => `This browser can't open ${name}: ${NOISE}. ${RESISTS}` };
    }
    const found = inspect(new Uint8Array(await file.arrayBuffer()));
    const bitmap = isTooLarge(found.size) ? null : await createImageBitmap(file);
    const [width, height] = bitmap ? [bitmap.width, bitmap.height] : found.size;
    const why = isTooLarge([width, height]) && ((name) => `${name} has ${width} by ${height} pixels. ${TAKEN} Nothing has changed.`);
    return { bitmap, found, why: why || undefined };
  } catch {
    return { why: (name) => `This browser can't read ${name} as a picture. Nothing has changed.` };
  }
}

function isTooLarge(size) {
  const [width, height] = size ?? [0, 0];
  return width * height > 0 && (Math.max(width, height) > MOST_SIDE || width * height > MOST_PIXELS);
}
