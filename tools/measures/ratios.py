"""Draws docs/ratios.svg, a picture of the first table of docs/PERFORMANCE.md, on standard output.

The files hold what the bench prints for `time`, and what the like program over the Rust crate prints. A line is `selected TAB nodes TAB values TAB
paths TAB query`, with nanoseconds a node by values and with paths. The last line is `nanoseconds TAB query`, for reading, and is skipped. A bar is
the time of a column here by that of the same column of the crate. What cannot be read, and a query of one file alone, is told on standard error,
with status 1.
"""

import math
import re
import sys
from xml.sax.saxutils import escape

NUMBER = r"([0-9]+(?:\.[0-9]+)?)"
LINE = re.compile(rf"[0-9]+\t[0-9]+\t{NUMBER}\t{NUMBER}\t([^\t]+)")
LAST_LINE = re.compile(rf"{NUMBER}\t[^\t]+")

TITLE = "Times here as a ratio of the Rust crate's"
AXIS = "time as a ratio of the Rust crate's, log scale"
# The two bars of a query: the colour, and the words in the legend.
BARS = [("#1f4e79", "here, by values"), ("#f2ad4e", "here, with paths")]

# All in pixels.
MARGIN, GAP, TOP, BOTTOM, RIGHT = 12, 8, 44, 48, 60
PLOT, BAR, ROW = 440, 14, 38
# The width of one letter of a query, a little more than most fonts take at 12 px.
LETTER = 7.3


def read(path):
    """Returns the two times of each query of a file."""
    try:
        with open(path, encoding="utf-8") as file:
            lines = [line.rstrip("\n") for line in file]
    except (OSError, UnicodeDecodeError) as error:
        sys.exit(f"{path}: {error}")
    if len(lines) < 2:
        sys.exit(f"{path}: no query in it")
    times = {}
    for number, line in enumerate(lines[:-1], 1):
        found = LINE.fullmatch(line)
        if not found or not line.replace("\t", "").isprintable():
            sys.exit(f"{path}, line {number}: not `selected TAB nodes TAB values TAB paths TAB query`: {line!r}")
        values, paths, query = float(found[1]), float(found[2]), found[3]
        if values == 0 or paths == 0:
            sys.exit(f"{path}, line {number}: a time is 0, which a log scale cannot show: {line!r}")
        if query in times:
            sys.exit(f"{path}, line {number}: this query is in the file twice: {query}")
        times[query] = values, paths
    if not LAST_LINE.fullmatch(lines[-1]):
        sys.exit(f"{path}, line {len(lines)}: the last line is not `nanoseconds TAB query`: {lines[-1]!r}")
    return times


def ratios(here_path, crate_path):
    """Returns the two ratios of each query, in the order of the first file."""
    here, crate = read(here_path), read(crate_path)
    alone = [f"only in {here_path}: {query}" for query in here if query not in crate]
    alone += [f"only in {crate_path}: {query}" for query in crate if query not in here]
    if alone:
        sys.exit("\n".join(alone))
    return {query: [a / b for a, b in zip(here[query], crate[query])] for query in here}


def text(x, y, words, more=""):
    """Returns a text of the SVG."""
    return f'<text x="{x:.1f}" y="{y:.1f}"{more}>{escape(words)}</text>'


def rect(x, y, width, height, colour):
    """Returns a rectangle of the SVG."""
    return f'<rect x="{x:.1f}" y="{y:.1f}" width="{width:.1f}" height="{height:.1f}" fill="{colour}"/>'


def picture(table):
    """Yields the lines of the SVG."""
    every = [ratio for pair in table.values() for ratio in pair]
    low, high = min(0.005, min(every) / 2), max(1, max(every))
    left = MARGIN + LETTER * max(map(len, table)) + GAP
    end = TOP + ROW * len(table)
    width, height = round(left + PLOT + RIGHT), end + BOTTOM
    middle = ' text-anchor="middle"'
    halo = ' stroke="#ffffff" stroke-width="4" paint-order="stroke"'

    def place(ratio):
        """Returns the place of a ratio on the axis."""
        return left + PLOT * math.log(ratio / low) / math.log(high / low)

    yield f'<svg xmlns="http://www.w3.org/2000/svg" width="{width}" height="{height}" viewBox="0 0 {width} {height}"'
    yield ' role="img" font-family="sans-serif" font-size="12px" fill="#000000">'
    yield f"<title>{escape(TITLE)}</title>"
    yield rect(0, 0, width, height, "#ffffff")
    for power in range(math.ceil(math.log10(low)), math.floor(math.log10(high)) + 1):
        x, colour = place(10**power), "#000000" if power == 0 else "#bbbbbb"
        yield f'<line x1="{x:.1f}" y1="{TOP - 8}" x2="{x:.1f}" y2="{end}" stroke="{colour}"/>'
        yield text(x, end + 16, f"{10**power:g}", middle)
    yield text(place(1), TOP - 16, "the Rust crate", middle)
    yield text(left + PLOT / 2, end + 36, AXIS, middle)
    for number, (colour, words) in enumerate(BARS):
        x = left + 140 * number
        yield rect(x, TOP - 27, BAR, BAR, colour)
        yield text(x + BAR + 6, TOP - 16, words)
    for number, (query, pair) in enumerate(table.items()):
        y = TOP + ROW * number + (ROW - 2 * BAR) / 2
        yield text(left - GAP, y + BAR + 4, query, ' text-anchor="end" font-family="monospace"')
        for ratio, (colour, _) in zip(pair, BARS):
            yield rect(left, y, place(ratio) - left, BAR, colour)
            yield text(place(ratio) + 4, y + BAR - 3, f"{ratio:.2f}", halo)
            y += BAR
    yield "</svg>"


def add_arguments(parser):
    """Adds the arguments of this command."""
    parser.add_argument("here", help="the file of the bench")
    parser.add_argument("crate", help="the file of the Rust crate")


def run(options):
    """Prints the picture."""
    sys.stdout.reconfigure(encoding="utf-8")
    print("\n".join(picture(ratios(options.here, options.crate))))
