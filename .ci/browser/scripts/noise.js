// A JPEG of noise that the browser itself encodes, of many bytes.
const done = arguments[arguments.length - 1];
const canvas = Object.assign(document.createElement("canvas"), { width: 256, height: 256 });
const context = canvas.getContext("2d"), reader = new FileReader();
const image = context.createImageData(256, 256);
for (let at = 0, value = 1; at < image.data.length; at += 1) {
  value = (Math.imul(value, 1103515245) + 12345) >>> 0;
  image.data[at] = at % 4 === 3 ? 255 : value >>> 24;
}
context.putImageData(image, 0, 0);
reader.onload = () => done(reader.result.split(",")[1]);
canvas.toBlob((it) => reader.readAsDataURL(it), "image/jpeg", 0.9);
