// What is drawn of each image: its caption, and how many cells and outlines of each kind.
const kinds = ["rect.pixel", "rect.padding", ".window", ".window.last", ".window.second", ".place"];
return [...document.querySelectorAll("#images figure")].map((it) => [
  it.querySelector("figcaption").textContent,
  ...kinds.map((kind) => it.querySelectorAll(kind).length),
]);
