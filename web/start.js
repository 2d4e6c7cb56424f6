// How both pages start: a module, and nothing by which a script could speak to others.

import { NoMemory64, makeLibrary } from "./calls.js";
import { find } from "./common.js";

// What speaks to other computers, and no policy forbids in every browser.
const TALKERS = ["RTCPeerConnection", "webkitRTCPeerConnection", "mozRTCPeerConnection", "RTCDataChannel"];

const OLD_BROWSER =
  "This browser can't run the page: it has no 64-bit WebAssembly memories. Safari and every browser on an iPhone "
  + "have none. Use Chrome, Chromium or Edge from version 133, or Firefox from version 134.";

/** Starts a page over a library, or says why it can't. */
export async function start(name, begin) {
  TALKERS.forEach((it) => delete globalThis[it]);
  try {
    begin(await makeLibrary());
    find("problem").hidden = true;
    find(name).inert = false;
    document.documentElement.dataset.ready = "yes";
  } catch (why) {
    const isOld = why instanceof NoMemory64;
    find("problem").textContent = isOld ? OLD_BROWSER : `The page can't start. ${why.message}`;
    document.documentElement.dataset.ready = "no";
  }
}
