// The controls of the page: buttons, fields, keys, and files that are dropped or pasted.

import { find } from "./common.js";
import { FIELDS } from "./list.js";
import { PicturePage } from "./picture.js";
import { colourOf, toolOf } from "./tools.js";

// How long after a click another one belongs to it, in milliseconds, and how far away it may be.
const DOUBLE = 500, NEAR = 16;

/** Starts the page over a library. */
export function startPicture(library) {
  const page = new PicturePage(library), { view } = page.stage;
  const on = (id, name, act) => find(id).addEventListener(name, act);
  for (const it of ["open", "drop"]) {
    on(it, "click", () => find("file").click());
  }
  on("file", "change", async ({ target }) => {
    const files = [...target.files];
    target.value = "";
    await page.opener.openAll(files);
  });
  on("next-picture", "click", () => page.opener.next());
  on("undo", "click", () => page.undo());
  on("redo", "click", () => page.redo());
  on("save", "click", () => page.saver.preview());
  on("hand", "click", () => page.saver.hand());
  on("copy-picture", "click", () => page.saver.copy());
  on("format", "change", ({ target }) => { find("of-jpeg").hidden = target.value !== "jpeg"; });
  on("add", "click", () => page.addInMiddle());
  on("remove", "click", () => page.remove(page.selected));
  on("apply", "click", () => page.applyText());
  on("copy", "click", () => page.copyText());
  // (a tool is for what is drawn next: no key changes an earlier rectangle then)
  on("tools", "change", ({ target }) => (target.name === "tool" && toolOf() !== "select" ? page.select(-1) : page.render()));
  on("selected", "change", ({ target }) => changeField(page, target));
  on("smaller", "click", () => view.step(-1));
  on("larger", "click", () => view.step(1));
  on("fit", "click", () => view.fit());
  on("actual", "click", () => view.zoomTo(1));
  on("turn-left", "click", () => page.orient("turn", "left"));
  on("turn-right", "click", () => page.orient("turn", "right"));
  on("mirror", "click", () => page.orient("flip", "columns"));
  for (const it of ["keep", "discard"]) {
    on(it, "click", () => find("ask").close(it));
  }
  takeFiles(page);
  takeOnce(["save", "hand"].map(find));
  document.addEventListener("keydown", (event) => keys(page, event));
  window.addEventListener("beforeunload", (event) => page.isUnsaved && event.preventDefault());
  page.render();
}

/** A double click on one of these buttons is one, and so is a key that is held: the rest does nothing, here and below a dialog. */
function takeOnce(buttons) {
  let last = { time: -Infinity, place: [0, 0] };
  const isSecond = (event) => event.timeStamp - last.time < DOUBLE
    && Math.hypot(event.clientX - last.place[0], event.clientY - last.place[1]) < NEAR;
  const stop = (event) => {
    event.stopImmediatePropagation();
    event.preventDefault();
  };
  window.addEventListener("click", (event) => {
    // (keys click too: those have no detail)
    if (event.detail > 0 && isSecond(event)) {
      stop(event);
    } else if (event.detail > 0 && buttons.some((it) => it.contains(event.target))) {
      last = { time: event.timeStamp, place: [event.clientX, event.clientY] };
    }
  }, true);
  window.addEventListener("pointerdown", (event) => isSecond(event) && stop(event), true);
  let began = null;
  window.addEventListener("keydown", (event) => {
    const isHeld = event.repeat && (event.target !== began || buttons.includes(event.target));
    began = event.repeat ? began : event.target;
    if (isHeld && ["Enter", " "].includes(event.key)) {
      event.preventDefault();
    }
  }, true);
}

/** Files that are dropped or pasted are opened. */
function takeFiles(page) {
  document.addEventListener("paste", (event) => page.opener.openAll([...event.clipboardData.files]));
  for (const name of ["dragover", "drop"]) {
    document.addEventListener(name, (event) => {
      // (a text that is dragged goes where it always goes)
      if (event.dataTransfer.types.includes("Files")) {
        event.preventDefault();
        return name === "drop" && page.opener.openAll([...event.dataTransfer.files]);
      }
    });
  }
}

/** A field of the selected edit has another value. */
function changeField(page, field) {
  if (field.id === "own-colour") {
    return page.change(page.selected, { colour: colourOf(field.id) });
  }
  const name = Object.keys(FIELDS).find((it) => FIELDS[it] === field.id);
  const value = field.valueAsNumber, own = name.startsWith("tile") ? { isOwn: true } : {};
  if (!Number.isSafeInteger(value) || value < 0) {
    page.say(`The ${field.dataset.name ?? name} is no whole number from 0 on. Nothing has changed.`, true);
    return page.render();
  }
  return page.changeSeen({ [name]: value, ...own });
}

/** What each key does: to the selected rectangle, with Ctrl, and alone. */
function keys(page, event) {
  const { view } = page.stage, key = event.key.toLowerCase(), { target } = event;
  const isText = target.matches("textarea, select, input:not([type=radio], [type=checkbox])");
  // (arrow keys in the choice of a tool choose one)
  const isChoice = target.matches("[type=radio]") && key.startsWith("arrow");
  const withControl = {
    o: () => find("file").click(),
    s: () => page.saver.preview(),
    z: isText ? null : () => (event.shiftKey ? page.redo() : page.undo()),
    y: isText ? null : () => page.redo(),
  };
  const alone = {
    "+": () => view.step(1), "=": () => view.step(1), "-": () => view.step(-1),
    "0": () => view.fit(), "1": () => view.zoomTo(1),
    escape: () => (page.stage.drag ? page.stage.cancel() : page.leave()),
  };
  const isControl = event.ctrlKey || event.metaKey, isOpen = document.querySelector("dialog[open]");
  const act = isControl ? withControl[key] : isText || event.altKey ? null : alone[key];
  const isDrag = page.stage.drag && key !== "escape";
  if (isOpen || isDrag) {
    // (the browser's own Ctrl+S would save the page)
    return isControl && key === "s" && event.preventDefault();
  }
  if (!isText && !isChoice && !event.altKey && page.stage.key(event)) {
    event.preventDefault();
  } else if (act && (page.pixels || key === "o")) {
    event.preventDefault();
    act();
  }
  return undefined;
}
