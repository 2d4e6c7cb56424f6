// How large the tiles of a mosaic are, so that they hide something.

// A tile is at least so small a part of its rectangle's shorter side, and of the picture's.
const OF_RECTANGLE = 8, OF_PICTURE = 40;
// A tile of one pixel changes nothing, and one of few pixels shows nearly what was there.
const LEAST = 2, FEW = 16;

/** Whether an edit shows tiles: their means, or the pixels at their corners. */
export function isMosaic({ word }) {
  return word === "means" || word === "mosaic";
}

/** The side of a tile where a person types none. The tiles that the rectangle's edges cut have enough pixels too, if it has. */
export function tileSide(rectangle, picture) {
  const most = Math.max(Number(rectangle.width), Number(rectangle.height));
  let side = leastSide(rectangle, picture);
  while (side < most && leastTile({ ...rectangle, tileWidth: side, tileHeight: side }) < FEW) {
    side += 1;
  }
  return side;
}

function leastSide(rectangle, picture) {
  const shorter = ({ width, height }) => Math.min(Number(width), Number(height));
  const side = Math.max(shorter(rectangle) / OF_RECTANGLE, shorter(picture) / OF_PICTURE);
  return Math.max(Math.ceil(side), LEAST);
}

/** How many pixels the smallest tile has: the edges of the rectangle cut those at its right and at its foot. */
function leastTile({ width, height, tileWidth, tileHeight }) {
  const part = (length, tile) => (tile < length && length % tile) || Math.min(length, tile);
  return part(Number(width), Number(tileWidth)) * part(Number(height), Number(tileHeight));
}

/** Whether a mosaic shows pixels as they were, or nearly: at the corners of its tiles, or by a tile of few pixels. */
export function showsPixels(edit) {
  return edit.word === "mosaic" || (edit.word === "means" && leastTile(edit) < FEW);
}

/** Why the tiles of a mosaic are too small, or nothing. */
export function weakness(edit, picture) {
  if (showsPixels(edit)) {
    const count = leastTile(edit), side = tileSide(edit, picture);
    const is = edit.word === "mosaic" ? "the one at the corner of each tile"
      : `its smallest tile has ${count === 1 ? "1 pixel" : `${count} pixels`}`;
    const canBe = edit.word === "means" && leastTile({ ...edit, tileWidth: side, tileHeight: side }) >= FEW;
    return `Shows single pixels: ${is}. Use ${canBe ? `tiles of ${side} by ${side}, or ` : ""}a fill.`;
  }
  return isMosaic(edit) ? smallness(edit, leastSide(edit, picture)) : "";
}

/** What the page says of tiles that a person types for what is drawn next. */
export function toolWeakness(tile, picture) {
  return smallness(tile, leastSide({ width: 0, height: 0 }, picture));
}

function smallness({ tileWidth, tileHeight }, side) {
  const isLarge = tileWidth >= side && tileHeight >= side;
  return isLarge ? "" : `Small tiles: what is below may be read. Use at least ${side} by ${side}, or a fill.`;
}

/** Whether a mosaic of these tiles shows each pixel as it was. */
export function hidesNothing(edit) {
  return isMosaic(edit) && edit.tileWidth === 1 && edit.tileHeight === 1;
}
