#!/usr/bin/env python3
"""The pictures of docs/PERFORMANCE.md: nanoseconds a value, or a window, against what grows, both on a log scale.

    bench/run growth > build/growth.txt && python3 tools/growth.py build/growth.txt docs/growth.svg
    bench/run window-growth > build/window_growth.txt &&
        python3 tools/growth.py build/window_growth.txt docs/window_growth.svg

The first file holds what `bench/run growth` or `bench/run window-growth` prints; `-` is standard input. It has a block of
lines for each kind of call: a line `# NAME`, a line that names the columns (FORMS), and lines of so many numbers. Blocks
with the same columns stand in one picture, others in one below it.
"""

import math
import sys
from html import escape
from typing import NamedTuple

WIDTH, HEIGHT = 900, 520
LEFT, RIGHT, TOP, BOTTOM = 80, 264, 56, 64
COLOURS = ["#0b5fa5", "#b3410e", "#2e7d32"]
INK, FAINT = "#222222", "#dddddd"
FONT = "font-family='Helvetica, Arial, sans-serif'"


class Form(NamedTuple):
    """What a picture shows: its title, what grows, what the times are for, and each curve's name with its dashes."""

    title: str
    across: str
    up: str
    curves: tuple
    # Whether the times are of a whole call, of n values.
    whole: bool = False


WINDOW_CURVES = (("Rust, calls", "7 4"), ("engine, calls", "2 3"), ("engine, windows", "none"))
FORMS = {
    "# n rust_ns engine_ns ratio": Form(
        "Time of a call, for each value of it",
        "values in the call (n)",
        "nanoseconds a value",
        (("Rust", "7 4"), ("engine", "none")),
        whole=True,
    ),
    "# w rust_ns calls_ns windows_ns": Form(
        "Time of a window, by its width", "values in a window (w)", "nanoseconds a window", WINDOW_CURVES
    ),
    "# windows rust_ns calls_ns windows_ns": Form(
        "Time of a window, by their number", "windows in the call", "nanoseconds a window", WINDOW_CURVES
    ),
}


def read(lines):
    """The heading, and for each form its kinds: a name with its points, which are what grows and a time for each curve."""
    heading, forms, comment, form = "", {}, "", None
    for number, line in enumerate(map(str.strip, lines), 1):
        if line in FORMS:
            form = FORMS[line]
            forms.setdefault(form, []).append((comment, []))
        elif line.startswith("#"):
            comment = line.lstrip("# ")
            heading = heading or comment
        elif line:
            if not form:
                raise ValueError(f"line {number}: numbers before any line of columns, as '{next(iter(FORMS))}'")
            forms[form][-1][1].append(point(number, line, form))
    if not forms or not all(points for kinds in forms.values() for _, points in kinds):
        raise ValueError("there are no numbers, or a kind has none")
    return heading, list(forms.items())


def point(number, line, form):
    try:
        n, *times = map(float, line.split())
        if len(times) != 3 or min(n, *times) <= 0:
            raise ValueError
    except ValueError:
        raise ValueError(f"line {number}: not four numbers above 0: '{line}'") from None
    return n, *(time / n if form.whole else time for time in times[: len(form.curves)])


def decades(values):
    """The powers of ten around the values: the exponents of the least and of the greatest."""
    low, high = math.floor(math.log10(min(values))), math.ceil(math.log10(max(values)))
    return low, max(high, low + 1)


def scale(low, high, start, end):
    """From a value to its place between start and end."""
    return lambda value: start + (math.log10(value) - low) / (high - low) * (end - start)


def text(x, y, words, size=13, anchor="start", more=""):
    place = f"x='{x:.1f}' y='{y:.1f}' font-size='{size}' text-anchor='{anchor}'"
    return f"<text {place} fill='{INK}' {more}>{escape(words)}</text>"


def stroke(x1, y1, x2, y2, colour, width=1, dash="none"):
    place = f"x1='{x1:.1f}' y1='{y1:.1f}' x2='{x2:.1f}' y2='{y2:.1f}'"
    return f"<line {place} stroke='{colour}' stroke-width='{width}' stroke-dasharray='{dash}'/>"


def power(exponent):
    return f"{10 ** exponent:,}" if exponent >= 0 else f"{10 ** exponent:.{-exponent}f}"


def grid(columns, rows, across, up):
    out = []
    for exponent in range(columns[0], columns[1] + 1):
        x = across(10 ** exponent)
        out.append(stroke(x, TOP, x, HEIGHT - BOTTOM, FAINT))
        out.append(text(x, HEIGHT - BOTTOM + 20, power(exponent), 12, "middle"))
    for exponent in range(rows[0], rows[1] + 1):
        for step in range(1, 10 if exponent < rows[1] else 2):
            y = up(step * 10 ** exponent)
            out.append(stroke(LEFT, y, WIDTH - RIGHT, y, FAINT, 1 if step == 1 else 0.4))
        out.append(text(LEFT - 8, up(10 ** exponent) + 4, power(exponent), 12, "end"))
    return out


def labels(heading, form):
    middle = (TOP + HEIGHT - BOTTOM) / 2
    turned = f"transform='rotate(-90 22 {middle:.1f})'"
    return [
        text(LEFT, 24, form.title, 16, more="font-weight='bold'"),
        text(LEFT, 43, heading, 11),
        text((LEFT + WIDTH - RIGHT) / 2, HEIGHT - 18, form.across, 13, "middle"),
        text(22, middle, form.up, 13, "middle", turned),
    ]


def curve(points, column, colour, dash, across, up):
    places = " ".join(f"{across(p[0]):.1f},{up(p[column]):.1f}" for p in points)
    return f"<polyline points='{places}' fill='none' stroke='{colour}' stroke-width='2' stroke-dasharray='{dash}'/>"


def picture(heading, form, kinds):
    everything = [p for _, points in kinds for p in points]
    columns = decades([p[0] for p in everything])
    rows = decades([value for p in everything for value in p[1:]])
    across = scale(*columns, LEFT, WIDTH - RIGHT)
    up = scale(*rows, HEIGHT - BOTTOM, TOP)
    out = grid(columns, rows, across, up) + labels(heading, form)
    x, y = WIDTH - RIGHT + 20, TOP + 16
    for index, (name, points) in enumerate(kinds):
        colour = COLOURS[index % len(COLOURS)]
        for column, (who, dash) in enumerate(form.curves, 1):
            out.append(curve(points, column, colour, dash, across, up))
            out.append(stroke(x, y - 4, x + 34, y - 4, colour, 2, dash))
            out.append(text(x + 42, y, f"{name}: {who}", 12))
            y += 22
        y += 8
    return out


def svg(pictures):
    """All pictures, one below another."""
    height = HEIGHT * len(pictures)
    size = f"width='{WIDTH}' height='{height}' viewBox='0 0 {WIDTH} {height}'"
    head = f"<svg xmlns='http://www.w3.org/2000/svg' {size} {FONT}>"
    back = f"<rect width='{WIDTH}' height='{height}' fill='#ffffff'/>"
    parts = [*pictures[0]]
    for place, below in enumerate(pictures[1:], 1):
        parts += [f"<g transform='translate(0 {place * HEIGHT})'>", *below, "</g>"]
    return "\n".join([head, back, *parts, "</svg>"]) + "\n"


def main(args):
    if len(args) != 2:
        sys.exit("usage: growth.py FILE|- PICTURE.svg")
    try:
        with sys.stdin if args[0] == "-" else open(args[0], encoding="utf-8") as lines:
            heading, forms = read(lines)
        with open(args[1], "w", encoding="utf-8") as out:
            out.write(svg([picture(heading, form, kinds) for form, kinds in forms]))
    except (OSError, ValueError) as error:
        sys.exit(f"growth.py: {error}")


if __name__ == "__main__":
    main(sys.argv[1:])
