// The list of edits, and the fields of the one that is selected.

import { find } from "./common.js";
import { textOf } from "./edits.js";
import { isOnStage } from "./stage.js";
import { isMosaic, showsPixels, weakness } from "./tile.js";
import { wordsOf } from "./words.js";

/** The field of each number of an edit. */
export const FIELDS = {
  left: "left", top: "top", width: "width", height: "height",
  tileWidth: "own-tile-width", tileHeight: "own-tile-height",
};
// What a rectangle can be changed to.
const KINDS = ["fill", "mosaic", "crop"];
// What is shown of a long text.
const MOST_LETTERS = 60;

/** Shows the edits. Their lines stay the same elements, so that the keys stay with one. */
export function renderList(edits, selected, picture, seen, select) {
  const list = find("edits");
  while (list.children.length > edits.length) {
    list.lastChild.remove();
  }
  while (list.children.length < edits.length) {
    list.append(lineOf(list.children.length, select));
  }
  edits.forEach((edit, index) => {
    const button = list.children[index].firstChild, [words, weak, text] = button.children;
    words.textContent = wordsOf(seen(edit));
    weak.textContent = showsPixels(edit) ? "Shows single pixels" : weakness(edit, picture) ? "Small tiles: may be read" : "";
    text.textContent = shortened(textOf(edit));
    button.setAttribute("aria-pressed", index === selected);
  });
  find("no-edits").hidden = edits.length > 0;
}

function lineOf(index, select) {
  const line = document.createElement("li"), button = document.createElement("button");
  button.append(...["span", "strong", "small"].map((it) => document.createElement(it)));
  button.addEventListener("click", () => select(index));
  line.append(button);
  return line;
}

function shortened(text) {
  const [first] = text.split("\n"), count = text.split("\n").length - 1;
  return first.slice(0, MOST_LETTERS) + (count ? ` and ${count} more` : "");
}

/** Shows which covers are no longer what they were, each with a button that brings it back. */
export function renderLosses(list, losses, bringBack) {
  list.replaceChildren(...losses.map((loss) => {
    const line = document.createElement("li"), button = document.createElement("button");
    line.append(loss.words);
    if (loss.form) {
      button.textContent = "Bring it back";
      button.setAttribute("aria-label", `Bring it back: ${loss.words}`);
      button.addEventListener("click", () => bringBack(loss));
      line.append(" ", button);
    }
    return line;
  }));
}

/** Shows the fields of an edit as it is seen, its warning, and what it can be changed to. */
export function renderSelected(edit, picture, seen, changeKind) {
  const canChange = edit && isOnStage(edit), kind = edit && isMosaic(edit) ? "mosaic" : edit?.word;
  const numbers = seen(edit);
  find("selected").disabled = !edit;
  for (const [name, id] of Object.entries(FIELDS)) {
    find(id).value = numbers?.[name] ?? "";
    find(id).disabled = !canChange;
  }
  document.querySelectorAll("[data-of]").forEach((it) => { it.hidden = it.dataset.of !== kind; });
  if (edit?.word === "fill") {
    find("own-colour").value = `#${edit.colour.map((it) => it.toString(16).padStart(2, "0")).join("")}`;
  }
  const weak = edit ? weakness(edit, picture) : "";
  [find("weak").textContent, find("weak").hidden] = [weak, !weak];
  const kinds = canChange ? KINDS.filter((it) => it !== kind) : [];
  find("changes").replaceChildren(...kinds.map((word) => {
    const button = document.createElement("button");
    button.textContent = `Change '${wordsOf(numbers)}' to a ${word === "mosaic" ? "pixelated one" : word}`;
    button.dataset.word = word;
    button.addEventListener("click", () => changeKind(word));
    return button;
  }));
}
