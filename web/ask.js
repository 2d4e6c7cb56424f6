// Questions that a person answers before something is lost, and work that waits until nothing is in a person's hands.

import { find } from "./common.js";

// How often the page looks whether a dialog or a drag has ended, in milliseconds.
const LOOK = 50;

// Takes the answer to the last question.
let lastAnswer = () => {};

/** Asks a person, with words for two buttons: `keep` or `discard`, or nothing where the question is closed. */
export function asked(question, keep = "Keep the edits", discard = "Discard them") {
  const dialog = find("ask");
  // (the question before is closed, and the browser may tell so only later)
  lastAnswer(dialog.returnValue);
  find("question").textContent = question;
  [find("keep").textContent, find("discard").textContent] = [keep, discard];
  dialog.returnValue = "";
  dialog.showModal();
  return new Promise((done) => {
    lastAnswer = done;
    dialog.onclose = () => dialog.open || done(dialog.returnValue);
  });
}

/** Whether the file is shown, or a question is asked: nothing is opened below it then. */
export function isDialogOpen() {
  return document.querySelector("dialog[open]") !== null;
}

/** Waits while a dialog is open, or a person draws. */
export async function idle(stage) {
  while (isDialogOpen() || stage.drag) {
    await new Promise((done) => { setTimeout(done, LOOK); });
  }
}
