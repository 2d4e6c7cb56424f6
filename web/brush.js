// A stroke of a brush as rectangles to fill. They cover all that its disc touched, and a little more.

// How many bands of rows the disc has, and how far it goes in a step, as a part of its width.
const BANDS = 16, STEP = 1 / 8;

/** The rectangles of a stroke of this width along these places, in a picture of this size. */
export function strokeOf(places, size, wide, high) {
  const band = Math.max(Math.floor(size / BANDS), 1), spans = new Map();
  for (const [x, y] of stamps(places, Math.max(size * STEP, 0.5))) {
    stamp(spans, x, y, size / 2, band, wide, high);
  }
  const rows = [...spans].sort(([one], [other]) => one - other);
  return stacked(rows.map(([at, them]) => [at, united(them)]), band, high);
}

/** The places, and as many between them as a step asks for. */
function stamps(places, step) {
  return places.flatMap(([x, y], index) => {
    const [fromX, fromY] = places[Math.max(index - 1, 0)];
    const count = Math.max(Math.ceil(Math.hypot(x - fromX, y - fromY) / step), 1);
    return Array.from({ length: count }, (_, at) => {
      const part = (at + 1) / count;
      return [fromX + (x - fromX) * part, fromY + (y - fromY) * part];
    });
  });
}

/** Notes which columns of each band a disc touches. */
function stamp(spans, x, y, half, band, wide, high) {
  const first = Math.max(Math.floor((y - half) / band), 0);
  const last = Math.min(Math.floor((y + half) / band), Math.floor((high - 1) / band));
  for (let at = first; at <= last; at += 1) {
    const nearest = Math.min(Math.max(y, at * band), (at + 1) * band) - y;
    const reach = Math.sqrt(Math.max(half * half - nearest * nearest, 0));
    const left = Math.max(Math.floor(x - reach), 0), right = Math.min(Math.ceil(x + reach), wide);
    if (right > left) {
      const others = spans.get(at) ?? [];
      others.push([left, right]);
      spans.set(at, others);
    }
  }
}

/** Spans of columns without those that touch another. */
function united(spans) {
  const found = [];
  for (const [left, right] of spans.sort(([one], [other]) => one - other)) {
    const last = found.at(-1);
    if (last && left <= last[1]) {
      last[1] = Math.max(last[1], right);
    } else {
      found.push([left, right]);
    }
  }
  return found;
}

/** The spans as rectangles. Equal ones of neighbouring bands are one. */
function stacked(rows, band, high) {
  const found = [];
  let open = new Map();
  for (const [at, spans] of rows) {
    const top = at * band, bottom = Math.min(top + band, high), next = new Map();
    for (const [left, right] of spans) {
      const above = open.get(`${left} ${right}`);
      const isBelow = above && above.top + above.height === top;
      const it = isBelow ? above : { left, top, width: right - left, height: 0 };
      it.height = bottom - it.top;
      next.set(`${left} ${right}`, it);
      if (!isBelow) {
        found.push(it);
      }
    }
    open = next;
  }
  return found;
}

/** The smallest rectangle round others. */
export function around(parts) {
  const left = Math.min(...parts.map((it) => it.left)), top = Math.min(...parts.map((it) => it.top));
  return {
    left, top, width: Math.max(...parts.map((it) => it.left + it.width)) - left,
    height: Math.max(...parts.map((it) => it.top + it.height)) - top,
  };
}
