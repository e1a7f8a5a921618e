#!/usr/bin/env python3
"""Counts, in crates/*/src, the places of the older forms that docs/DESIGN-PASS.md goes through.

    tools/forms.py           how many places of each point
    tools/forms.py 3         the places of point 3, file and line
    tools/forms.py --root D  the same of another copy of the repository

The patterns are crude on purpose: what they find is looked at by hand, and what stays is said beside it.
"""
import collections
import glob
import os
import re
import sys

FLAG = re.compile(r"^    pub (ok|failed|more|code|found): (bool|u32),$|^    (ok|failed|more): bool,$", re.M)
OWN_ENUM = re.compile(r"^    (?:Malformed|Refused\(u32\)|Overflow|NoneBad),$", re.M)
CODE_CONST = re.compile(r"^pub const [A-Z0-9_]+: u32 = \d+;$", re.M)
KIND_CONST = re.compile(r"^pub const (?:MORE|SIZE|STRIDE|BASE|START|END|FINISH): u64 = \d;$", re.M)
CODE_RESULT = re.compile(r"^(?:pub )?fn \w+(?:<[^>]*>)?\((?:[^{}]|\n)*?\) -> u32\b", re.M)
CODE_TEST = re.compile(r"^\s*if (?:!\w+\.ok|\w+\.ok|\w+\.failed|!\w+\.more|code != 0|fault != 0|refusal != 0|\w+\.code != 0)\b.*$", re.M)
LOOP = re.compile(r"^\s*(?:while|loop)\b.*$", re.M)
BY_HAND = re.compile(
    r"^(?:pub )?fn (?:min_u64|min_usize|magnitude|checked_mul_wide|checked_mul_u64|checked_mul_i64|checked_neg_i64|goes_before|sent|signed|word_at"
    r"|put_bytes|put_word|bad_byte|mark_of|code_of|hex_byte|digit_of|from_positive|from_negative|lesser|is_infinite|move_down|float_of|bits_of|all)\(",
    re.M,
)
TABLE_COUNT = re.compile(r"\w+: &(?:mut )?\[\w+; PLACES\],\s*\w+: &(?:mut )?\[\w+; PLACES\],\s*count: usize|count: usize, axes: \[|axis_count: usize|out: &mut \[\w+\], (?:at|from): usize")
THREE_BUFFERS = re.compile(r"ms: &(?:mut )?\[f64\],\s*es: &(?:mut )?\[i64\],\s*bads: &(?:mut )?\[u8\]")
SWITCH = re.compile(r"^\s*if check::same\(.*$|\b(?:signs|all|over|in_blocks): bool\b|\bway: usize\b", re.M)
TOGETHER = [
    ("sizes, strides", re.compile(r"sizes: &\[u64\],\s*strides: &\[i64\]")),
    ("base, start, end", re.compile(r"base: i64,\s*start: u64,\s*end: u64")),
    ("values, start, stride, len", re.compile(r"values: &\[f64\],\s*\w+: i64,\s*stride: i64,\s*(?:eight: i64,\s*)?\w+: usize")),
    ("line, at", re.compile(r"line: &\[u8\],\s*at: usize")),
]
FUNCTION = re.compile(r"^(?P<indent> *)(?:#\[[^\]]*\]\n *)*(?:pub )?(?:extern \"C\" )?fn (?P<name>\w+)", re.M)


def sources(root):
    for path in sorted(glob.glob(os.path.join(root, "crates", "*", "src", "**", "*.rt"), recursive=True)):
        with open(path, encoding="utf-8") as file:
            yield os.path.relpath(path, root), file.read()


def found(pattern, files):
    for path, text in files:
        for match in pattern.finditer(text):
            start = match.start() + len(match.group(0)) - len(match.group(0).lstrip())
            yield path, text.count("\n", 0, start) + 1, match.group(0).strip().split("\n")[0]


def functions(files):
    """Each function: file, line, name, clauses, body."""
    for path, text in files:
        for match in FUNCTION.finditer(text):
            closing = "\n" + match.group("indent") + "}"
            end = text.find(closing, match.end())
            whole = text[match.start() : end + len(closing)]
            opening = whole.find("\n" + match.group("indent") + "{")
            if opening < 0:
                opening = whole.find(" {\n")
            yield path, text.count("\n", 0, match.start()) + 1, match.group("name"), whole[:opening], whole[opening:]


def shape(body):
    """A body with every name, type and number put to one word: twins have one shape."""
    return re.sub(r"\s+", " ", re.sub(r"\b(?!(?:if|else|while|for|in|let|mut|return|match|loop)\b)[\w:.]+", "_", re.sub(r"//.*", "", body)))


def twins(files):
    shapes = collections.defaultdict(list)
    for path, line, name, _, body in functions(files):
        if body.count("\n") > 3:
            shapes[shape(body)].append((path, line, name))
    for group in shapes.values():
        if len(group) > 1:
            for path, line, name in group:
                yield path, line, f"{name} (one of {len(group)})"


def facts(files):
    """Parts of `requires` that stand in three functions or more, with each argument's name put to one word."""
    places = collections.defaultdict(list)
    for path, line, name, head, _ in functions(files):
        clause = re.search(r"requires \{(.*?)\}\n", head + "\n", re.S)
        if clause:
            for part in {re.sub(r"\s+", " ", p).strip(" ()") for p in clause.group(1).split("×")}:
                places[re.sub(r"\b(?!length\b|old\b|now\b)[a-z]\w*", "_", part)].append((path, line, f"{name}: {part}"))
    for group in places.values():
        if len({g[2].split(":")[0] for g in group}) > 2:
            yield from group


def together(files):
    for name, pattern in TOGETHER:
        for path, line, _ in found(pattern, files):
            yield path, line, name


def points(root):
    files = list(sources(root))
    several = lambda *patterns: [place for pattern in patterns for place in found(pattern, files)]
    proofs = [(os.path.relpath(p, root), 1, "") for p in sorted(glob.glob(os.path.join(root, "crates", "*", "proofs", "**", "Proof.antt"), recursive=True))]
    return [
        ("1 own Options and Results: flags and codes beside a value, variants of failure", several(FLAG, OWN_ENUM)),
        ("1 numbers for refusals and kinds: constants, results", several(CODE_CONST, KIND_CONST, CODE_RESULT)),
        ("1 tests of a flag or a code", several(CODE_TEST)),
        ("2 functions of one shape", list(twins(files))),
        ("3 loops that are no for", several(LOOP)),
        ("4 comparing, converting and printing by hand", several(BY_HAND)),
        ("5 facts that three requires or more have", list(facts(files))),
        ("5 parameters that travel together", list(together(files))),
        ("6 a length beside a table or a buffer, parallel buffers", several(TABLE_COUNT, THREE_BUFFERS)),
        ("7 switches: words of calls, flags and ways as parameters", several(SWITCH)),
        ("8 proofs by steps (Proof.antt)", proofs),
    ]


def main(words):
    root = os.path.join(os.path.dirname(os.path.abspath(__file__)), "..")
    if "--root" in words:
        at = words.index("--root")
        root, words = words[at + 1], words[:at] + words[at + 2 :]
    if len(words) > 1 or (words and not re.fullmatch("[1-8]", words[0])):
        sys.exit("usage: tools/forms.py [POINT] [--root FOLDER], POINT from 1 to 8")
    for title, places in points(root):
        if not words or title.startswith(words[0]):
            print(f"{len(places):5}  {title}")
        if words and title.startswith(words[0]):
            for path, line, text in places:
                print(f"         {path}:{line}  {text}")


main(sys.argv[1:])
