#!/usr/bin/env python3
"""What show.py says of a line and what the program answers to it agree on every stored case: malformed or not."""

import sys

import show


def main():
    cases = zip(show.lines("crates/replay/stdin"), show.lines("crates/replay/stdout"))
    wrong = [
        (number, show.shown_line(case), show.fault_of(case))
        for number, (case, answer) in enumerate(cases, 1)
        if (show.fault_of(case) is not None) != (answer == b"malformed")
    ]
    for number, case, fault in wrong[:5]:
        print(f"line {number}: {case}: {fault}", file=sys.stderr)
    return 1 if wrong else 0


if __name__ == "__main__":
    sys.exit(main())
