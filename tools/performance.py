#!/usr/bin/env python3
"""Puts measured figures into docs/PERFORMANCE.md, each between the lines `<!-- NAME -->` and `<!-- /NAME -->`.

    bench/run > build/table.txt && bench/run rare > build/rare.txt && bench/run growth > build/growth.txt &&
        bench/run figures > build/figures.txt && bench/run search > build/search.txt &&
        bench/run steps > build/steps.txt && bench/run ranges > build/ranges.txt &&
        bench/run windows > build/windows.txt && bench/run window-growth > build/window_growth.txt &&
        bench/run threads > build/threads.txt && bench/run jobs > build/jobs.txt &&
        python3 tools/growth.py build/growth.txt docs/growth.svg &&
        python3 tools/growth.py build/window_growth.txt docs/window_growth.svg && python3 tools/performance.py

It reads those eleven files and what tools/stack_frames.py says of the static libraries. With names behind it, as
`performance.py figures`, it puts in those alone, and reads no other file.
"""

import re
import subprocess
import sys
from pathlib import Path

import growth

ROOT = Path(__file__).resolve().parent.parent
PAGE = ROOT / "docs/PERFORMANCE.md"

# The ratios of the plain form, which worked value by value: 2026-11-15, in the order of the table's first rows.
BEFORE = [
    *(2.11, 0.93),
    *(2.87, 1.78, 2.92, 1.56, 3.70),
    *(3.59, 3.34, 3.80, 3.71, 2.13, 2.16, 2.11, 1.72),
    *(8.59, 8.61),
    *(2.38, 1.88, 2.57),
]


def built(name):
    return (ROOT / "build" / name).read_text(encoding="utf-8").strip()


def cells(table):
    """The rows of a table with a ratio in the last column."""
    lines = [line.strip("|").split("|") for line in table.splitlines() if line.startswith("| ")]
    rows = [[cell.strip() for cell in line] for line in lines[1:]]
    return [row for row in rows if row[-1]]


def before(table):
    rows = cells(table)
    if len(rows) < len(BEFORE):
        raise ValueError(f"the table has {len(rows)} rows with a ratio, and {len(BEFORE)} are known from before")
    out = ["| case | rates | before | now |", "|---|---|---:|---:|"]
    out += [f"| {row[0]} | {row[1]} | {ratio:.2f} | {float(row[-1]):.2f} |" for row, ratio in zip(rows, BEFORE)]
    return "\n".join(out)


def power(n):
    return n >= 1 and float(f"1e{len(str(int(n))) - 1}") == n


def grown(lines):
    """Nanoseconds a call at the powers of ten."""
    heading, [(_, kinds)] = growth.read(lines)
    out = [f"{heading}. Nanoseconds a call, the Rust / the engine.", ""]
    out += ["| values | " + " | ".join(name for name, _ in kinds) + " |", "|---:|" + "---:|" * len(kinds)]
    for points in zip(*(points for _, points in kinds)):
        n = points[0][0]
        if power(n):
            pairs = [f"{rust * n:,.0f} / {engine * n:,.0f}" for _, rust, engine in points]
            out.append(f"| {n:,.0f} | " + " | ".join(pairs) + " |")
    return "\n".join(out)


def windows_grown(lines):
    """Nanoseconds a window, at each width and at each number of windows."""
    heading, forms = growth.read(lines)
    out = [f"{heading}. Nanoseconds a window."]
    for form, kinds in forms:
        for name, points in kinds:
            heads = [f"{form.across}, {name}", *(who for who, _ in form.curves)]
            out += ["", f"| {' | '.join(heads)} |", "|" + "---:|" * len(heads)]
            out += [f"| {n:,.0f} | " + " | ".join(f"{time:,.1f}" for time in times) + " |" for n, *times in points]
    return "\n".join(out)


def stack(library):
    command = [sys.executable, "tools/stack_frames.py", f"crates/{library}/out/lib{library}.a"]
    return subprocess.run(command, cwd=ROOT, check=True, capture_output=True, text=True).stdout.strip()


def put(page, name, figures):
    place = re.compile(rf"(<!-- {name} -->\n).*?(<!-- /{name} -->)", re.DOTALL)
    page, count = place.subn(lambda match: f"{match[1]}\n{figures}\n\n{match[2]}", page)
    if count != 1:
        raise ValueError(f"{PAGE.name} has {count} places for '{name}'")
    return page


PLACES = {
    "table": lambda: built("table.txt"),
    "before": lambda: before(built("table.txt")),
    "rare": lambda: built("rare.txt"),
    "figures": lambda: built("figures.txt"),
    "search": lambda: built("search.txt"),
    "steps": lambda: built("steps.txt"),
    "ranges": lambda: built("ranges.txt"),
    "windows": lambda: built("windows.txt"),
    "threads": lambda: built("threads.txt"),
    "jobs": lambda: built("jobs.txt"),
    "growth": lambda: grown(built("growth.txt").splitlines()),
    "window-growth": lambda: windows_grown(built("window_growth.txt").splitlines()),
    "stack": lambda: stack("probe"),
    "figure-stack": lambda: stack("figure_probe"),
    "search-stack": lambda: stack("search_probe"),
    "step-stack": lambda: stack("step_probe"),
    "ranges-stack": lambda: stack("ranges_probe"),
    "windows-stack": lambda: stack("windows_probe"),
    "join-stack": lambda: stack("join_probe"),
    "job-stack": lambda: stack("job_probe"),
}


def main():
    names = sys.argv[1:] or list(PLACES)
    try:
        page = PAGE.read_text(encoding="utf-8")
        for name in names:
            if name not in PLACES:
                raise ValueError(f"there is no place '{name}'; there are {', '.join(PLACES)}")
            page = put(page, name, PLACES[name]())
        PAGE.write_text(page, encoding="utf-8")
    except (OSError, ValueError, subprocess.CalledProcessError) as error:
        sys.exit(f"performance.py: {error}")


if __name__ == "__main__":
    main()
