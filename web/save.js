// Saving: the file is made and shown first. Then it is handed to the browser, or the picture goes to the clipboard.

import { isDialogOpen } from "./ask.js";
import { find } from "./common.js";
import { encoded, encodedAgain } from "./encode.js";
import { renderLosses } from "./list.js";
import { marksOf } from "./marks.js";
import { Sheet } from "./sheet.js";
import { coversInWords, listed } from "./words.js";

const WHERE = "Look for it in your browser's list of downloads.";

export class Saver {
  constructor(page) {
    Object.assign(this, { page, ready: null, sheet: new Sheet() });
    find("preview").addEventListener("close", () => this.forget());
    find("to-edits").addEventListener("click", () => find("preview").close());
    // (over plain http a browser gives no clipboard)
    for (const it of ["copy-picture", "copy"]) {
      find(it).hidden = !navigator.clipboard?.write;
    }
  }

  /** Makes the file, and shows what is in it. Until it is closed nothing else can be changed or opened. */
  async preview() {
    const { page } = this;
    if (isDialogOpen() || !await page.endAllTyping()) {
      return;
    }
    const format = find("format").value, turn = (this.turn = {}), shown = this.shownNow(format);
    const quality = Math.min(Math.max(find("quality").valueAsNumber || 90, 1), 100) / 100;
    this.allow(false);
    this.tell(`Making ${shown.name} …`);
    this.renderLosses(shown);
    find("preview-covers").textContent = shown.covers;
    find("preview").showModal();
    try {
      const file = await encoded(shown.bytes, shown.size[0], `image/${format}`, quality);
      const bitmap = await createImageBitmap(file);
      if (turn !== this.turn) {
        bitmap.close();
        return;
      }
      this.ready = { ...shown, bytes: null, file };
      this.tell(`${shown.name} will have these ${shown.size.join(" by ")} pixels.`);
      this.sheet.show(bitmap, shown.size, shown.marks);
      this.allow(true);
      find("hand").focus();
    } catch (why) {
      if (turn === this.turn) {
        this.tell(`This browser can't save the picture: ${why.message}.`);
      }
    }
  }

  /** What the preview shows and says: pixels and words of the same moment. */
  shownNow(format) {
    const { page } = this, { edits, pixels, losses, found } = page;
    const [bytes, size] = pixels.output((output, width, height) => [output.slice(), [width, height]]);
    return {
      bytes, size, losses, name: this.name(format), covers: coversInWords(edits), lost: page.lossesInWords,
      dropped: droppedInWords(found), marks: marksOf(edits, pixels),
    };
  }

  renderLosses({ losses }) {
    renderLosses(find("preview-losses"), losses, (it) => {
      find("preview").close();
      this.page.bringBack(it);
      this.preview();
    });
  }

  tell(text) {
    find("preview-name").textContent = text;
  }

  allow(isAllowed) {
    for (const it of ["hand", "copy-picture"]) {
      find(it).disabled = !isAllowed;
    }
  }

  /** Hands the file that is shown to the browser, once. Whether it was written, no page can know. */
  hand() {
    const { page, ready } = this;
    if (ready) {
      this.ready = null;
      this.allow(false);
      // (the page round this frame gives it to the browser: see frame.html)
      window.parent.postMessage({ file: ready.file, name: ready.name }, "*");
      const lines = [`${ready.name} was handed to your browser.`, WHERE, `${ready.size.join(" by ")} pixels.`];
      page.say([...lines, ready.covers, ready.lost, ready.dropped].filter(Boolean).join(" "));
      page.settle();
      find("preview").close();
    }
  }

  /** The preview is closed: its file is let go. */
  forget() {
    // (this comes late, and it may be open again)
    if (find("preview").open) {
      return;
    }
    [this.turn, this.ready] = [null, null];
    this.allow(false);
    this.sheet.clear();
    this.page.render();
  }

  /** The name of the saved file. It has no part of the old one, unless a person asks. */
  name(format) {
    const old = find("keep-name").checked ? `${this.page.name.replace(/\.[^.]*$/, "") || "picture"}-` : "";
    return `${old}covered.${format === "jpeg" ? "jpg" : format}`;
  }

  /** Puts the picture that is shown on the clipboard. */
  async copy() {
    const { page, ready } = this;
    if (ready) {
      this.tell("Copying …");
      try {
        const file = ready.file.type === "image/png" ? ready.file : encodedAgain(ready.file);
        await navigator.clipboard.write([new ClipboardItem({ "image/png": file })]);
        this.tell("Copied the picture, as PNG.");
        page.say(`Copied the picture. ${ready.covers} ${ready.lost}`.trim());
      } catch (why) {
        this.tell(`This browser doesn't let the page copy a picture: ${why.message}`);
      }
    }
  }
}

/** What of a file isn't saved: what was lost at opening, and what it held besides pixels. */
function droppedInWords({ names, lost, isKnown }) {
  const held = !isKnown ? "All else in the file was dropped."
    : names.length ? `Dropped from the file: ${listed(names)}.` : lost.length ? "" : "The file held nothing else.";
  return [...lost, held].filter(Boolean).join(" ");
}
