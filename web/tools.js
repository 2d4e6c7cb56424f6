// The tool for what is drawn next, with its fields.

import { find } from "./common.js";
import { toolWeakness } from "./tile.js";

const HINTS = {
  fill: "Leaves nothing of what it covers.",
  brush: "Fills along a path. Leaves nothing of what it covers.",
  mosaic: "Keeps the mean of each tile, so a text can be guessed. Use a fill for secrets. "
    + "Without numbers, tiles are an eighth of the rectangle, and at least a fortieth of the picture.",
  crop: "Only what is inside is saved.",
  select: "Drag a rectangle to move it, or one of its corners. With every other tool each drag draws.",
};

/** The name of the tool. */
export function toolOf() {
  return document.querySelector("[name=tool]:checked").value;
}

/** The colour of a field: red, green and blue. */
export function colourOf(id) {
  return find(id).value.match(/\w\w/g).map((it) => parseInt(it, 16));
}

/** Shows the fields of the tool, what it hides, and whether its tiles are too small for a picture. */
export function renderTools(picture) {
  const tool = toolOf(), [tileWidth, tileHeight] = ["tile-width", "tile-height"].map(
    (it) => find(it).valueAsNumber || Infinity
  );
  const weak = picture && tool === "mosaic" && toolWeakness({ tileWidth, tileHeight }, picture);
  [find("small-tiles").textContent, find("small-tiles").hidden] = [weak || "", !weak];
  find("hint").textContent = HINTS[tool];
  document.querySelectorAll("[data-for]").forEach(
    (it) => { it.hidden = !it.dataset.for.split(" ").includes(tool); }
  );
}
