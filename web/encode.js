// A picture as a file. A worker encodes it, so that the page goes on meanwhile. What a browser adds to the pixels is left out:
// Chromium adds a colour profile to a JPEG, and Firefox a chunk to a PNG that is another one in each session.

import { NOISE, givesPixels } from "./noise.js";

// How many pixels are read back before a picture is encoded.
const READ_BACK = 65536;

/** What runs in the worker: it gets bytes or a file, and gives a file or the reason why there is none. */
function encodeInWorker() {
  const pixelsOfPng = (bytes, view) => {
    const parts = [bytes.subarray(0, 8)];
    for (let at = 8; at < bytes.length;) {
      const end = at + 12 + view.getUint32(at);
      // (a capital letter: no reader can do without it)
      if ((bytes[at + 4] & 32) === 0) {
        parts.push(bytes.subarray(at, end));
      }
      at = end;
    }
    return parts;
  };
  const pixelsOfJpeg = (bytes, view) => {
    const parts = [bytes.subarray(0, 2)];
    let at = 2;
    while (bytes[at + 1] !== 0xda) {
      const end = at + 2 + view.getUint16(at + 2), marker = bytes[at + 1];
      if (marker !== 0xfe && (marker <= 0xe0 || marker > 0xef)) {
        parts.push(bytes.subarray(at, end));
      }
      at = end;
    }
    return [...parts, bytes.subarray(at)];
  };
  const drawn = async ({ file, bytes, width }) => {
    const image = file ? await createImageBitmap(file) : new ImageData(bytes, width);
    const canvas = new OffscreenCanvas(image.width, image.height), context = canvas.getContext("2d");
    if (file) {
      context.drawImage(image, 0, 0);
      image.close();
    } else {
      context.putImageData(image, 0, 0);
    }
    return { canvas, context };
  };
  // (the first rows: all that is opaque is as it was put there)
  const isKept = ({ canvas: { width, height }, context }, { bytes }) => {
    const rows = Math.min(Math.ceil(READ_BACK / width), height), { data } = context.getImageData(0, 0, width, rows);
    return data.every((it, index) => it === bytes[index] || bytes[index | 3] < 255);
  };
  self.onmessage = async ({ data: asked }) => {
    try {
      const { type, quality, bytes } = asked, { canvas, context } = await drawn(asked), { width, height } = canvas;
      if (!await givesPixels() || (bytes && !isKept({ canvas, context }, asked))) {
        throw new Error(NOISE);
      }
      if (type === "image/jpeg") {
        // (a JPEG has no clear pixels: they become white)
        context.globalCompositeOperation = "destination-over";
        context.fillStyle = "#fff";
        context.fillRect(0, 0, width, height);
      }
      const made = await canvas.convertToBlob({ type, quality }), all = new Uint8Array(await made.arrayBuffer());
      const parts = (type === "image/png" ? pixelsOfPng : pixelsOfJpeg)(all, new DataView(all.buffer));
      // (in one piece: Firefox looks at the first one alone to see what an image is)
      self.postMessage({ file: new Blob([await new Blob(parts).arrayBuffer()], { type }) });
    } catch (why) {
      self.postMessage({ why: why.message });
    }
  };
}

/** The bytes of a picture as a file of this type. They belong to the worker then. */
export function encoded(bytes, width, type, quality) {
  return byWorker({ bytes, width, type, quality }, [bytes.buffer]);
}

/** The pixels of a file as PNG. */
export function encodedAgain(file) {
  return byWorker({ file, type: "image/png" }, []);
}

function byWorker(asked, given) {
  const constants = `const NOISE = ${JSON.stringify(NOISE)}, READ_BACK = ${READ_BACK}, givesPixels = ${givesPixels};`;
  const url = URL.createObjectURL(new Blob([`${constants}(${encodeInWorker})()`], { type: "text/javascript" }));
  const worker = new Worker(url);
  return new Promise((done, fail) => {
    worker.onmessage = ({ data }) => (data.file ? done(data.file) : fail(new Error(data.why)));
    worker.onerror = () => fail(new Error("the worker doesn't run"));
    worker.postMessage(asked, given);
  }).finally(() => {
    worker.terminate();
    URL.revokeObjectURL(url);
  });
}
