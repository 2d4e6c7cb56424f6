"""The tables of docs/PERFORMANCE.md and of bench/tables.md, and the plot, from what `make bench` measured (bench.py)."""
import dataclasses
import math
import statistics

# The headers of the columns that compare a call: with what, in the order of the times that the C side writes.
COMPARED = ("vs. loop in C", "vs. plain C call", "vs. loop in Rust", "vs. original crate")
# Those that do the same work as the call. (The plain call in C has no rows.)
SAME_WORK = {0: "loop in C", 2: "loop in Rust", 3: "original crate"}
# The sides of the images in docs/PERFORMANCE.md: of a tiny one, of a small one and of a large one. All sides are in bench/tables.md.
SHOWN = (16, 64, 2048)
# What the table beside other libraries has, in bench/tables.md and in docs/PERFORMANCE.md.
OTHERS = "Each on one thread, from Python, on square images of these sides. First come the nanoseconds a pixel here. After the dot is this time divided by that of the faster one of the two."
OTHERS_SHOWN = "On one thread, from Python: our time divided by that of the faster one of OpenCV and NumPy. Below 1 we are faster."
# A call is faster than a comparison below the first quotient, and slower above the second. Above the third one it is named.
FASTER, SLOWER, NAMED = 0.95, 1.05, 1.25


@dataclasses.dataclass
class Call:
    """A call on images of one side: its least time in nanoseconds over all builds, and for each comparison the quotient of the
    times in each build (none where there is no such comparison)."""

    name: str
    cell: str
    side: int
    time: float
    quotients: list


def quotient(a, b):
    return f"{a / b:.2f}" if b else "–"


def spread(quotients):
    """The quotients of the builds as one cell: the middle one, and the least and the greatest where they differ by 5 % or more."""
    if not quotients:
        return "–"
    least, middle, most = min(quotients), statistics.median(quotients), max(quotients)
    return f"{middle:.2f}" if most < 1.05 * least else f"{middle:.2f} ({least:.2f}–{most:.2f})"


def markdown(head, rows):
    """A table in Markdown."""
    line = lambda cells: f"| {' | '.join(cells)} |"
    return "\n".join([line(head), "|" + "---|" * len(head), *map(line, rows)])


def slowness(call):
    """How slow a call is in its slowest build beside what does the same work."""
    return max((max(call.quotients[k]) for k in SAME_WORK if call.quotients[k]), default=0)


def middles(rows, side, k):
    """The middle quotients of the calls on images of a side, to one comparison. Those on smaller cells come first."""
    ordered = sorted((it for it in rows if it.side == side and it.quotients[k]), key=lambda it: int(it.cell[1:]))
    return [statistics.median(it.quotients[k]) for it in ordered]


def summary_table(rows):
    """How many calls are faster and slower than each comparison, in Markdown."""
    cells = []
    for k, name in SAME_WORK.items():
        for side in SHOWN:
            found = middles(rows, side, k)
            faster, slower = sum(it < FASTER for it in found), sum(it > SLOWER for it in found)
            cells.append([name, f"{side} by {side}", *map(str, (faster, len(found) - faster - slower, slower))])
    return markdown(["Beside", "Pixels", "Faster", "The same", "Slower"], cells)


def slower_table(rows):
    """A row in Markdown for each call that is clearly slower than something, with its greatest middle quotients over all sides and
    cells. The row with the greatest one comes first."""
    cells = []
    for name in dict.fromkeys(it.name for it in rows):
        of_call = [it for it in rows if it.name == name]
        found = [max((statistics.median(it.quotients[k]) for it in of_call if it.quotients[k]), default=0) for k in SAME_WORK]
        if max(found) > NAMED:
            cells.append((max(found), [name, *(f"{it:.2f}" if it else "–" for it in found)]))
    return markdown(["Call", *SAME_WORK.values()], [row for _, row in sorted(cells, key=lambda it: it[0], reverse=True)])


def calls_shown(rows):
    """The calls for docs/PERFORMANCE.md: how many are faster and slower, the plot, and the greatest quotients of the slow ones."""
    sides = sorted({it.side for it in rows})
    plotted = "![Time of each call, divided by the time of a loop in C](speed.svg)\n\nThese calls take more than 1.25 times as long as something. A number is the greatest quotient on images of"
    plotted += f" {', '.join(map(str, sides[:-1]))} and {sides[-1]} pixels a side, of one byte and of four:"
    return "\n\n".join(["## The calls", summary_table(rows), plotted, slower_table(rows)])


def call_tables(rows, sides):
    """The calls in Markdown: a table for each side. The call that is slowest beside one of its comparisons comes first."""
    parts = []
    for side in sides:
        ordered = sorted((it for it in rows if it.side == side), key=slowness, reverse=True)
        cells = [[it.name, f"`{it.cell}`", f"{it.time:.0f} ns", *map(spread, it.quotients)] for it in ordered]
        parts.append(f"## Images of {side} by {side} pixels\n\n" + markdown(["Call", "Cell", "Time", *COMPARED], cells))
    return "\n\n".join(parts)


def script_table(rows, is_beside):
    """The scripts in Markdown, the slowest beside plain C first. The other program's column says how many times as long it takes."""
    head = ["Script", "Size", "Time", "Script per second", "Memory per byte of script", "vs. plain C", *["time of the other program"] * is_beside]
    cells = []
    for name, count, seconds, memory, plain, other in sorted(rows, key=lambda it: it[2] / it[4] if it[4] else 0, reverse=True):
        cells.append([name, f"{count / 1e6:.1f} MB", f"{seconds:.3f} s", f"{count / seconds / 1e6:.0f} MB", f"{memory / count:.1f}", quotient(seconds, plain), *[quotient(other, seconds)] * is_beside])
    return "## The script program\n\n" + markdown(head, cells)


def frames_table(rows):
    """The edits of the video program in Markdown, the slowest beside what they are compared with first."""
    head = ["Input", "Edit", "Per second", "Speed vs. `cat`", "Speed vs. `dd`", "Speed vs. ffmpeg's filter"]
    ordered = sorted(rows, key=lambda it: min(share for share in it[3:] if share))
    cells = [[it[0], f"`{it[1]}`", f"{it[2]:.0f}", *(f"{share:.2f}" if share else "–" for share in it[3:])] for it in ordered]
    return "## The video program\n\n" + markdown(head, cells)


def plot(rows, sides):
    """The quotients to the loop in C as an SVG, on a logarithmic axis from the least to the greatest: a line for each call that
    has such a loop, a dot for each side. The slowest comes first."""
    to_loop = lambda it: statistics.median(it.quotients[0])
    rows = sorted((it for it in rows if it.quotients[0]), key=to_loop, reverse=True)
    names = list(dict.fromkeys((it.name, it.cell) for it in rows))
    powers = [math.log2(to_loop(it)) for it in rows]
    low, high = min(-1, math.floor(min(powers))), max(1, math.ceil(max(powers)))
    left, wide, line, top = 220, 560, 18, 84
    bottom, width = top + line * len(names), left + wide + 40
    at = lambda power: left + wide * (power - low) / (high - low)
    colours = ["#1b6ca8", "#d1495b", "#5a9a3c", "#8a5fa8", "#c98a1b", "#4b4b4b"]
    drawn = [f'<svg xmlns="http://www.w3.org/2000/svg" width="{width}" height="{bottom + 44}" font-family="sans-serif" font-size="11">']
    drawn += ['<rect width="100%" height="100%" fill="white"/>', f'<text x="{width // 2}" y="20" text-anchor="middle" font-size="14">Time of each call, divided by the time of a loop in C</text>']
    for k, side in enumerate(sides):
        drawn.append(f'<circle cx="{left + 130 * k}" cy="42" r="4" fill="{colours[k % 6]}"/><text x="{left + 130 * k + 8}" y="46">{side} by {side} pixels</text>')
    for power in range(low, high + 1):
        drawn.append(f'<path d="M{at(power):.0f} {top - 8}V{bottom}" stroke="{"#000" if power == 0 else "#ccc"}"/><text x="{at(power):.0f}" y="{top - 12}" text-anchor="middle">{2 ** power if power >= 0 else f"1/{2 ** -power}"}</text>')
    for k, (name, cell) in enumerate(names):
        y = top + line * k + 9
        drawn.append(f'<text x="{left - 10}" y="{y + 4}" text-anchor="end">{cell} {name}</text>')
        for it in rows:
            if (it.name, it.cell) == (name, cell):
                drawn.append(f'<circle cx="{at(math.log2(to_loop(it))):.1f}" cy="{y}" r="4" fill="{colours[sides.index(it.side) % 6]}"/>')
    drawn.append(f'<text x="{left + wide // 2}" y="{bottom + 26}" text-anchor="middle">quotient of the times, logarithmic: left of 1 the call is faster than the loop in C, right of 1 slower</text>')
    return "\n".join([*drawn, "</svg>", ""])


def others_table(rows, sides, shows_times=True):
    """The package for Python beside other libraries: a row for each call, a column for each side and size of a pixel. A cell has the
    quotient, and before it the time where that is wanted. Without times, calls on bytes alone have a table of their own."""
    found = {tuple(it[:3]): f"{it[3]} · {it[4]}" if shows_times else it[4] for it in rows}
    sizes = sorted({it[1] for it in rows})
    kinds = {name: [size for size in sizes if (name, size, sides[0]) in found] for name in dict.fromkeys(it[0] for it in rows)}
    parts = [sizes] if shows_times else [sizes, *([it] for it in sizes if [it] in kinds.values())]
    made = [OTHERS if shows_times else OTHERS_SHOWN]
    for part in parts:
        columns = [(size, side) for side in sides for size in part]
        head = ["Call", *(f"{side}: {size} byte{'s' * (size != 1)}" for size, side in columns)]
        names = [name for name, kind in kinds.items() if shows_times or kind == part]
        made.append(markdown(head, [[name, *(found.get((name, *it), "–") for it in columns)] for name in names]))
    return "\n\n".join(made)
