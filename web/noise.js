// Whether a browser gives the pixels that were put on a canvas, or noise against fingerprints.

export const NOISE = "it doesn't let the page read pixels, and gives noise in their place";

/** Whether a canvas and its file give exactly the opaque pixels that were put on it. This runs in a worker too. */
export async function givesPixels() {
  const side = 16, canvas = new OffscreenCanvas(side, side), context = canvas.getContext("2d");
  const bytes = crypto.getRandomValues(new Uint8Array(4 * side * side)).map((it, index) => (index % 4 === 3 ? 255 : it));
  const isSame = (it) => it.getImageData(0, 0, side, side).data.every((value, index) => value === bytes[index]);
  context.putImageData(new ImageData(new Uint8ClampedArray(bytes), side, side), 0, 0);
  const bitmap = await createImageBitmap(await canvas.convertToBlob({ type: "image/png" }));
  const decoded = new OffscreenCanvas(side, side).getContext("2d");
  decoded.drawImage(bitmap, 0, 0);
  return isSame(context) && isSame(decoded);
}
