// How the whole picture is turned and mirrored. Its pixels in memory stay as they were opened: the screen
// shows them turned, and the saved file is made by calls of the module.
//
// An orientation says where a step to the right and a step down in the picture go on the screen: [a, b] and
// [c, d], in the order of matrix() in CSS.

export const UPRIGHT = [1, 0, 0, 1];
const STEPS = {
  "turn right": [0, 1, -1, 0], "turn half": [-1, 0, 0, -1], "turn left": [0, -1, 1, 0],
  "flip rows": [1, 0, 0, -1], "flip columns": [-1, 0, 0, 1],
};
// (a quarter turn is the last line, as imgref_frames wants it)
const LISTS = [
  [], ["turn right"], ["turn half"], ["turn left"], ["flip rows"], ["flip columns"],
  ["flip rows", "turn right"], ["flip columns", "turn right"],
];

/** The edit of two words, such as `turn right`, or null. */
export function turnOf(word, to) {
  return Object.hasOwn(STEPS, `${word} ${to}`) ? { word, to } : null;
}

/** Whether an edit turns or mirrors the whole picture. */
export function orients(edit) {
  return edit.word === "turn" || edit.word === "flip";
}

/** How a list leaves the picture. */
export function orientationOf(edits) {
  return edits.filter(orients).map(({ word, to }) => STEPS[`${word} ${to}`]).reduce(after, UPRIGHT);
}

/** The shortest list of turns and flips that leaves the picture like these, one after the other. */
export function shortest(edits) {
  const wanted = `${orientationOf(edits)}`;
  const lists = LISTS.map((lines) => lines.map((it) => turnOf(...it.split(" "))));
  return lists.find((it) => `${orientationOf(it)}` === wanted);
}

function after([a, b, c, d], [e, f, g, h]) {
  return [e * a + g * b, f * a + h * b, e * c + g * d, f * c + h * d];
}

/** A picture of this size on the screen. Places are in pixels of the picture, from its left upper corner. */
export class Turned {
  constructor(orientation, width, height) {
    const [a, b, c, d] = orientation;
    this.steps = orientation;
    [this.width, this.height] = a === 0 ? [height, width] : [width, height];
    this.corner = [a + c < 0 ? this.width : 0, b + d < 0 ? this.height : 0];
  }

  /** Whether what goes down to the right in the picture goes up to the right on the screen. */
  get isSwapped() {
    return (this.corner[0] > 0) !== (this.corner[1] > 0);
  }

  /** The transformation of CSS, where a pixel of the picture has so many of the screen. */
  style(scale) {
    return `matrix(${[...this.steps, ...this.corner.map((it) => it * scale)].join()})`;
  }

  /** A step on the screen as a step in the picture. */
  step([right, down]) {
    const [a, b, c, d] = this.steps;
    return [a * right + b * down, c * right + d * down];
  }

  /** A place on the screen as a place in the picture. */
  place([x, y]) {
    return this.step([x - this.corner[0], y - this.corner[1]]);
  }

  /** Whether columns of the picture are rows on the screen. */
  get isQuarter() {
    return this.steps[0] === 0;
  }

  /** An edit with its numbers as they are seen. */
  seen(edit) {
    return this.renumbered(edit, (it) => this.onScreen(it));
  }

  /** An edit as it is in the picture, from its numbers as they are seen. */
  unseen(edit) {
    return this.renumbered(edit, (it) => this.inPicture(it));
  }

  renumbered(edit, turned) {
    const { x, y, width, height, tileWidth, tileHeight } = edit, made = { ...edit };
    if (width !== undefined) {
      Object.assign(made, turned(edit));
    }
    if (x !== undefined) {
      const { left, top } = turned({ left: x, top: y, width, height });
      Object.assign(made, { x: left, y: top });
    }
    if (tileWidth !== undefined && this.isQuarter) {
      Object.assign(made, { tileWidth: tileHeight, tileHeight: tileWidth });
    }
    return made;
  }

  /** A rectangle of the screen as one of the picture. */
  inPicture({ left, top, width, height }) {
    return between(this.place([left, top]), this.place([left + width, top + height]));
  }

  /** A rectangle of the picture as one of the screen. */
  onScreen({ left, top, width, height }) {
    const [a, b, c, d] = this.steps, [right, down] = this.corner;
    const shown = (x, y) => [a * x + c * y + right, b * x + d * y + down];
    return between(shown(left, top), shown(left + width, top + height));
  }
}

/** The rectangle with two opposite corners. */
export function between([x, y], [otherX, otherY]) {
  return {
    left: Math.min(x, otherX), top: Math.min(y, otherY), width: Math.abs(x - otherX), height: Math.abs(y - otherY)
  };
}
