// A small file of a kind that the browser itself encodes: blue at the left, white at the right.
const done = arguments[arguments.length - 1];
const canvas = Object.assign(document.createElement("canvas"), { width: 32, height: 16 });
const context = canvas.getContext("2d"), reader = new FileReader();
for (const [colour, left] of [["#00f", 0], ["#fff", 16]]) {
  context.fillStyle = colour;
  context.fillRect(left, 0, 16, 16);
}
reader.onload = () => done(reader.result.split(",")[1]);
canvas.toBlob((it) => reader.readAsDataURL(it), arguments[0], 0.95);
