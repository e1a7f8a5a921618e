#!/usr/bin/env python3
"""Spells this repository's own definitions and lemmas as today's Rattle does: words in snake case.

usage: tools/respell.py [FOLDER]     FOLDER is the top of a checkout in which the kit's port.py ran (this one, if none is given)

badIn, narrowI64-fits and the field in-unit become bad_in, narrow_i64-fits and in_unit. A name is turned where a file of specs/ or proofs/ declares it, in all
files of crates/: .rt, .antt and .edit. Nothing else is touched: functions, strings and exported names of src/ are in snake case already. A dash that joins the
parts of a lemma's name stays; in the name of a record's field it becomes an underscore. It stops, and writes nothing, where two names would fall together. A
second run changes nothing. tools/respell.py --map prints the names, old and new, which is what the pages were turned by.
"""

import os
import re
import sys

TOKEN = re.compile(r"[A-Za-z_][A-Za-z0-9_']*(?:-[A-Za-z0-9_'<>=+*/%^≤≢≡]+)*")
DECLARED = re.compile(r"\s*(?:abbrev |unfoldable )?(?:pub )?([^\s(){}:]+)\s*:\s")
FIELD = re.compile(r"  (?:pub )?([^\s(){}:]+)\s*:\s")
CAMEL = re.compile(r"(^|[-_])[a-z][a-z0-9]*[A-Z]")
# Made by the kit, in proof files of the older form: not the repository's.
MADE = re.compile(r"^(Need|After|Then|Else|In|At|Joined|returns|loop|invariant|decreases)\b")


def files(top):
    for folder, dirs, names in os.walk(os.path.join(top, "crates")):
        dirs[:] = sorted(d for d in dirs if d != "out")
        for name in sorted(names):
            if name.endswith((".rt", ".antt", ".edit")):
                yield os.path.join(folder, name)


def snake(word):
    parts = [re.sub(r"(?<=[a-z0-9])([A-Z])", lambda m: "_" + m.group(1).lower(), p) if CAMEL.search(p) else p for p in word.split("-")]
    return "-".join(parts)


def names(texts):
    """The declared names that are turned, each with its new spelling: fields of records apart, since their dashes go."""
    turned, fields = {}, {}
    for path, text in texts.items():
        if not path.endswith(".antt"):
            continue
        record = False
        for line in text.splitlines():
            if re.match(r"(?:deriving )?(?:pub )?record\s", line):
                record = True
            elif line.strip() and not line.startswith(" "):
                record = False
            m = FIELD.match(line) if record else None
            if m and "-" in m.group(1):
                fields[m.group(1)] = snake(m.group(1)).replace("-", "_")
            m = DECLARED.match(line)
            if m and CAMEL.search(m.group(1)):
                turned[m.group(1)] = snake(m.group(1))
    return turned, {old: new for old, new in fields.items() if not MADE.match(old)}


def turn(text, turned, fields):
    """A field is turned behind a dot, and where a record declares or makes it; another name wherever it stands."""

    def at(m):
        word, before, after = m.group(0), text[: m.start()], text[m.end() :]
        if word in turned:
            return turned[word]
        if word in fields and (re.search(r"[\w')]\.$", before) or re.match(r"\s*=[^=]", after) or re.search(r"\n  (pub )?$", before) and re.match(r"\s*:\s", after)):
            return fields[word]
        return word

    return TOKEN.sub(at, text)


def apart(texts, turned):
    """A lemma of one file that has its function's new name gets `_lem`, as the kit's own do."""
    for path, text in texts.items():
        if not path.endswith(".antt"):
            continue
        words = set(TOKEN.findall(text))
        for old, new in turned.items():
            if old in words and re.search(rf"(?m)^ *{new} : ", text):
                text = re.sub(rf"(?<![\w.'-]){new}(?![\w'-])", new + "_lem", text)
        texts[path] = text


def clashes(texts, turned, fields):
    """A path, a comment or a function of src/ may have a definition's name; a variable may not, since it would hide it."""
    for path, text in texts.items():
        if path.endswith(".antt"):
            bare = re.sub(r"(?m)--.*$", "", text)
            words, free = set(TOKEN.findall(bare)), set(re.findall(r"(?<![\w.'-])" + TOKEN.pattern, bare))
        else:
            words = set(TOKEN.findall(text))
            free = set(re.findall(r"\b(\w+)\s*:(?!:)", text)) | set(re.findall(r"\blet (?:mut )?(\w+)", text))
        for old, new in {**turned, **fields}.items():
            if old in words and new in free:
                yield f"{path}: {old} would become {new}, which is there"
    spelled = {}
    for old, new in turned.items():
        if spelled.setdefault(new, old) != old:
            yield f"{old} and {spelled[new]} would both become {new}"


def main(argv):
    only_map = "--map" in argv
    rest = [a for a in argv if a != "--map"]
    top = rest[0] if rest else os.path.join(os.path.dirname(os.path.realpath(__file__)), "..")
    texts = {}
    for path in files(top):
        with open(path, encoding="utf-8") as it:
            texts[path] = it.read()
    turned, fields = names(texts)
    if only_map:
        print("\n".join(f"{old} {new}" for old, new in sorted({**turned, **fields}.items())))
        return 0
    was = dict(texts)
    apart(texts, turned)
    found = sorted(set(clashes(texts, turned, fields)))
    if found:
        print("\n".join(found))
        return 1
    count = 0
    for path, text in texts.items():
        new = turn(text, turned, fields)
        if new != was[path]:
            count += 1
            with open(path, "w", encoding="utf-8") as it:
                it.write(new)
    print(f"respell: {len(turned)} names and {len(fields)} fields, {count} files")
    return 0


if __name__ == "__main__":
    raise SystemExit(main(sys.argv[1:]))
