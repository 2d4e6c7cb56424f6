// The page of layouts: a script beside its images, drawn as cells, step by step.

import { addDrawn, find } from "./common.js";
import { FAULT_WORDS, outputOf, readScript, runScript, windowsAlong } from "./script.js";
import { plural } from "./words.js";

// The size of a cell on the screen, the room for the measures, and what is drawn at most.
const SIDE = 44, ROOM = 36, MOST_COLUMNS = 64, MOST_CELLS = 1024;
const EXAMPLES = {
  "Nested windows": ["image 3 2 4 1 2 3 4 5 6 7 8 9", "get 0 1,0,2,2/1,0,1,2 0 1",
    "put 0 1,1,2,1 0 0 9", "get 0 - 1 1"],
  "Padding stays": ["image 3 2 4 1 2 3 4 5 6 7 8 9", "fill 0 1,0,2,2 0", "count 0 - 0",
    "compact 0"],
  "An overlapping copy": ["image 3 3 4 1 2 3 0 4 5 6 0 7 8 9", "blit 0 0,0,2,2 0 1,1,2,2",
    "blit 0 0,0,1,1 0 0,0,2,1"],
  "A mosaic": ["image 3 3 3 1 2 3 4 5 6 7 8 9", "mosaic 0 - 2 2", "mosaic 0 - 0 2",
    "mosaic 0 1,1,2,2 5 5"],
  "Two strides": ["image 2 2 2 1 2 3 4", "image 2 2 5 1 2 0 0 0 3 4", "same 0 - 1 -",
    "put 1 - 1 1 8", "same 0 - 1 -", "blit 1 - 0 -"],
};

class LayoutPage {
  constructor(library) {
    this.library = library;
  }

  /** Takes the script of the text, at its beginning. */
  read() {
    this.script = readScript(this.library, find("script").value);
    this.all = runScript(this.library, this.script, this.script.commands.length);
    this.at = 0;
    this.render();
  }

  step(at) {
    this.at = Math.min(Math.max(at, 0), this.script.commands.length);
    this.render();
  }

  render() {
    const { script, at, all } = this, { commands, bad } = script;
    const now = runScript(this.library, script, at);
    find("first").disabled = find("back").disabled = at === 0;
    find("next").disabled = find("last").disabled = at === commands.length;
    find("step").textContent = bad ? `fault line ${bad}: ${script.why}` : stepText(
      at, commands.length, all.replies[at - 1]
    );
    find("step").classList.toggle("problem", bad > 0);
    find("lines").replaceChildren(...script.lines.map((it, index) => this.line(it, index)));
    find("output").textContent = (
      bad ? [`fault line ${bad}`] : outputOf(all)
    ).map((it) => `${it}\n`).join("");
    find("images").replaceChildren(...now.images.map(
      (image, index) => pictureOf(this.library, image, index, commands[at - 1])
    ));
  }

  /** A line of the script, with the reply where its command has been carried out. */
  line(text, index) {
    const line = document.createElement("li"), code = document.createElement("code");
    const command = this.script.commands.findIndex((it) => it.line === index);
    code.textContent = text.length > 200 ? `${text.slice(0, 200)}…` : text;
    line.append(code);
    line.classList.toggle("bad", this.script.bad === index + 1);
    if (command >= 0 && command < this.at) {
      const reply = document.createElement("output");
      reply.textContent = this.all.replies[command];
      line.append(reply);
    }
    if (command >= 0 && command === this.at - 1) {
      line.setAttribute("aria-current", "step");
    }
    return line;
  }
}

function stepText(at, count, reply) {
  if (count === 0) {
    return "There is no command.";
  }
  const fault = reply?.startsWith("refused ") ? `: ${FAULT_WORDS[Number(reply.slice(8))]}` : "";
  const before = `Before the first of ${plural(count, "step")}`;
  return at ? `Step ${at} of ${count}: ${reply}${fault}` : before;
}

/** An image drawn as cells, with the windows of the command that was carried out last. */
function pictureOf(library, image, index, command) {
  const figure = document.createElement("figure"), caption = document.createElement("figcaption");
  const { width, height, stride, values } = image;
  const cells = plural(values.length, "cell");
  caption.textContent = `Image ${index}: ${width} by ${height} pixels, stride ${stride}, ${cells}`;
  figure.append(caption);
  if (stride > MOST_COLUMNS || values.length > MOST_CELLS) {
    const note = document.createElement("p");
    note.textContent = "It is too large to be drawn.";
    figure.append(note);
    return figure;
  }
  const columns = Number(stride), rows = Math.max(Math.ceil(values.length / columns), 1);
  const wide = columns * SIDE + ROOM + 4;
  const svg = addDrawn(figure, "svg", {
    viewBox: `${-ROOM} ${-ROOM} ${wide} ${rows * SIDE + 2 * ROOM}`, width: wide, role: "img",
    "aria-label": `${caption.textContent}: ${values.join(" ")}`,
  });
  values.forEach((value, at) => {
    const x = at % columns, y = Math.floor(at / columns), isPixel = x < width && y < height;
    addDrawn(
      svg, "rect",
      { class: isPixel ? "pixel" : "padding", x: x * SIDE, y: y * SIDE, width: SIDE, height: SIDE }
    );
    addDrawn(svg, "text", { x: (x + 0.5) * SIDE, y: (y + 0.5) * SIDE }).textContent = value;
  });
  measures(svg, Number(width), Number(height), columns, rows);
  for (const [at, { index: number, path }] of (command?.spots ?? []).entries()) {
    if (Number(number) === index) {
      outlines(svg, image, command, windowsAlong(library, image, path), path.length, at);
    }
  }
  return figure;
}

/** The width above, the height at the left, and the stride below. */
function measures(svg, width, height, columns, rows) {
  const drawn = Math.min(height, rows);
  const line = (d) => addDrawn(svg, "path", { class: "measure", d });
  const text = (x, y, words, more = {}) => {
    addDrawn(svg, "text", { class: "measure", x, y, ...more }).textContent = words;
  };
  if (width > 0) {
    line(`M1 -8H${width * SIDE - 1}M1 -12v8M${width * SIDE - 1} -12v8`);
    text((width * SIDE) / 2, -20, `width ${width}`);
  }
  if (drawn > 0) {
    line(`M-8 1V${drawn * SIDE - 1}M-12 1h8M-12 ${drawn * SIDE - 1}h8`);
    text(
      -20, (drawn * SIDE) / 2, `height ${height}`,
      { transform: `rotate(-90 -20 ${(drawn * SIDE) / 2})` }
    );
  }
  const low = rows * SIDE + 8;
  line(`M1 ${low}H${columns * SIDE - 1}M1 ${low - 4}v8M${columns * SIDE - 1} ${low - 4}v8`);
  text((columns * SIDE) / 2, low + 14, `stride ${columns}`);
}

/** The windows along a path, the last one bold, and the place of a get or a put. */
function outlines(svg, image, { word, numbers }, windows, length, at) {
  windows.forEach((it, index) => {
    const isLast = index === length - 1, inset = isLast ? 3 : 1;
    const box = boxOf(it, inset);
    addDrawn(
      svg, "rect", { class: `window${isLast ? " last" : ""}${at ? " second" : ""}`, ...box }
    );
  });
  if ((word === "get" || word === "put") && windows.length === length) {
    const [x, y] = numbers, window = windows.at(-1) ?? { left: 0n, top: 0n, ...image };
    if (x < window.width && y < window.height) {
      addDrawn(
        svg, "rect",
        {
          class: "place",
          ...boxOf({ left: window.left + x, top: window.top + y, width: 1n, height: 1n }, 7)
        }
      );
    }
  }
}

function boxOf({ left, top, width, height }, inset) {
  const [x, y, wide, high] = [left, top, width, height].map((it) => Number(it) * SIDE);
  return {
    x: x + inset, y: y + inset, width: Math.max(wide - 2 * inset, 0),
    height: Math.max(high - 2 * inset, 0)
  };
}

/** Starts the page over a library. */
export function startLayout(library) {
  const page = new LayoutPage(library);
  find("example").append(...Object.keys(EXAMPLES).map((it) => new Option(it)));
  const choose = () => {
    find("script").value = EXAMPLES[find("example").value].map((it) => `${it}\n`).join("");
    page.read();
  };
  find("example").addEventListener("change", choose);
  find("script").addEventListener("input", () => page.read());
  find("first").addEventListener("click", () => page.step(0));
  find("back").addEventListener("click", () => page.step(page.at - 1));
  find("next").addEventListener("click", () => page.step(page.at + 1));
  find("last").addEventListener("click", () => page.step(Infinity));
  choose();
}
