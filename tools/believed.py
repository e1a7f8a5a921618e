#!/usr/bin/env python3
"""Checks what a reader must believe: believed.py [--write].

What an exported contract, a stated theorem or a table of cases reaches must lie in the files of specs/ that
docs/PROOFS.md lists under "What must be believed", and nowhere else; each definition there must be reached; and all
of them together have at most MOST_LINES lines. Imports, comments, blank lines and `unfolding` lines, which only steer the
checker, are not counted. --write puts the list into the page.
"""

import re
import sys
from pathlib import Path

ROOT = Path(__file__).resolve().parent.parent
PAGE = ROOT / "docs" / "PROOFS.md"
# A new rule raises it by the lines of its definitions, in the commit that adds them.
MOST_LINES = 1517
# The exported calls: a file of src and the functions in it (docs/RULES.md, C1 to C14).
EXPORTED = {
    "layout/src/traversal.rt": ["compile"],
    "offsets/src/list.rt": ["offset_list"],
    "reduction/src/full.rt": ["reduce"],
    "accumulator/src/lib.rt": ["join"],
    "finishing/src/lib.rt": ["finish"],
    "ordered/src/lib.rt": ["ordered_product"],
    "search/src/lib.rt": ["first_bad_rate"],
    "figures/src/lib.rt": ["figure"],
    "bookmarks/src/lib.rt": ["reduce_step"],
    "ranges/src/lib.rt": ["reduce_ranges"],
    "windows/src/lib.rt": ["reduce_windows"],
    "jobs/src/reading.rt": ["read_job"],
    "jobs/src/writing.rt": ["write_job"],
    "probe/src/lib.rt": ["probe_reduce", "probe_list"],
    "figure_probe/src/lib.rt": ["probe_ordered", "probe_figure"],
    "search_probe/src/lib.rt": ["probe_first"],
    "step_probe/src/lib.rt": ["probe_step"],
    "ranges_probe/src/lib.rt": ["probe_ranges"],
    "windows_probe/src/lib.rt": ["probe_windows"],
    "join_probe/src/lib.rt": ["probe_join", "probe_finish"],
    "job_probe/src/lib.rt": ["probe_read", "probe_write"],
}
# Files whose every definition is a statement: theorems, and tables of cases that are proved.
STATEMENTS = ("Theorems", "Cases")
# The program's own reading and printing of numbers; no promise of the engine rests on it.
APART = ("text",)

USE = re.compile(r"^(?:ghost )?use Rattle\.(\w+)\.specs\.([\w.-]+)\.\{([^}]*)\};?$")
# The kit's notions of floats: its file of operations, the one beside it, and what the Prelude has of them.
KIT = re.compile(r"^use Rattle\.std\.specs\.Float(?:\.\w+)*\.\{([^}]*)\}$")
PRELUDE = re.compile(r"^use Rattle\.std\.specs\.Prelude\.\{([^}]*)\}$")
# The words of floats that the Prelude passes on; its others are no words of IEEE 754.
OF_FLOATS = ("Float", "is_nan", "to_bits", "from_bits")
WORD = re.compile(r"\.?[^\s(){}\[\];,.:\"λ⌜⌝⟦⟧|]+")
HEAD = re.compile(r"^(?:(?:unfoldable|abbrev|pub) )*(?:(record|data) )?([^\s:(){}=]+)")


class Module:
    """A file of specs/: its imports by name, and its definitions with their lines."""

    def __init__(self, path):
        self.name = f"{path.parts[-3]}/{path.stem}"
        self.imports, self.kit, self.lines, self.owner = {}, set(), {}, {}
        current = None
        for line in sections(path.read_text(encoding="utf-8").splitlines()):
            if line.startswith("use "):
                self.imports.update(imported(line))
                self.kit.update(kit_names(line))
            elif line.strip() and not line.lstrip().startswith(("--", "unfolding ")):
                current = self.place(line, current)
        self.owner.update((name, name) for name in self.lines)

    def place(self, line, current):
        """Gives a line to its definition; a data type's constructors are known by it too."""
        if line[0] in " ]":
            constructor = re.match(r"^  (\S+) : ", line)
            if constructor and self.lines[current][0].find("data ") >= 0:
                self.owner[constructor.group(1)] = current
        else:
            current = HEAD.match(line).group(2)
        self.lines.setdefault(current, []).append(line)
        return current

    def words(self, name):
        return {word for line in self.lines[name] for word in WORD.findall(line) if word[0] != "."}


def sections(lines):
    """The lines as they would stand outside of a section, whose own line is left with what stands before it."""
    inside = False
    for line in lines:
        if line.strip() and line[0] != " ":
            inside = line.startswith("module _ ")
            yield f"  {line}" if inside else line
        else:
            yield line[2:] if inside else line


def imported(line):
    """The names of a `use` line of our own specs, each with the module and the name that it has there."""
    match = USE.match(line)
    if not match:
        return {}
    parts = [item.strip().split(" as ") for item in match.group(3).split(",")]
    return {part[-1]: (f"{match.group(1)}/{match.group(2)}", part[0]) for part in parts}


def kit_names(line):
    kit, prelude = KIT.match(line), PRELUDE.match(line)
    match = kit or prelude
    words = [item.strip().split(" as ")[0] for item in match.group(1).split(",")] if match else []
    return [word for word in words if kit or word in OF_FLOATS]


def contract_words(path, function):
    """The names that the contract of a function cites, and the file's imports."""
    text = path.read_text(encoding="utf-8")
    match = re.search(rf"fn {function}(?:<[^(]*>)?\(.*?\n\s*\{{\n", text, re.S)
    if not match:
        sys.exit(f"believed: no function {function} in {path.name}; mend EXPORTED")
    contract = match.group(0)
    if "requires" in contract:
        sys.exit(f"believed: {function} is exported and has a `requires`")
    imports = {}
    for line in text.splitlines():
        imports.update(imported(line))
    return {word for clause in clauses(contract) for word in WORD.findall(clause)}, imports


def clauses(contract):
    """What stands in the braces of each `ensures`."""
    for match in re.finditer(r"\bensures\b[^{]*\{", contract):
        depth, end = 1, match.end()
        while depth:
            depth += {"{": 1, "}": -1}.get(contract[end], 0)
            end += 1
        yield contract[match.end() : end - 1]


def resolve(modules, home, words, imports):
    """The definitions of ours that words mean in a module, or in a file with these imports."""
    found = set()
    for word in words:
        if home and word in home.owner:
            found.add((home.name, home.owner[word]))
        elif word in imports:
            name, original = imports[word]
            if name in modules and original in modules[name].owner:
                found.add((name, modules[name].owner[original]))
    return found


def roots(modules):
    """What is reached first, with what it is reached from."""
    first = {}
    for file, functions in EXPORTED.items():
        for function in functions:
            words, imports = contract_words(ROOT / "crates" / file, function)
            first.update((found, f"the contract of {function}") for found in resolve(modules, None, words, imports))
    for module in modules.values():
        if module.name.split("/")[1] in STATEMENTS:
            first.update(((module.name, name), "a statement") for name in module.lines)
    return first


def reached(modules):
    seen = roots(modules)
    waiting = list(seen)
    while waiting:
        name, definition = waiting.pop()
        home = modules[name]
        for found in resolve(modules, home, home.words(definition), home.imports):
            if found not in seen:
                seen[found] = f"{name}: {definition}"
                waiting.append(found)
    return seen


def table(modules):
    rows = ["| file of specs/ | lines | definitions |", "|---|---:|---|"]
    for module in modules:
        count = sum(map(len, module.lines.values()))
        rows.append(f"| `{module.name}` | {count} | {', '.join(f'`{name}`' for name in module.lines)} |")
    total = sum(len(lines) for module in modules for lines in module.lines.values())
    return "\n".join([*rows, f"| all {len(modules)} files | {total} | |"]), total


def page_table(text):
    match = re.search(r"<!-- believed -->\n\n(.*?)\n\n<!-- /believed -->", text, re.S)
    if not match:
        sys.exit("believed: docs/PROOFS.md has no place <!-- believed --> .. <!-- /believed -->")
    return match


def main():
    crates = (ROOT / re.split(r"[ :]", line)[0] for line in (ROOT / "crates.txt").read_text().splitlines() if line[:1] not in "#")
    order = [crate.name for crate in crates if crate.name not in APART]
    files = [file for name in order for file in sorted((ROOT / "crates" / name / "specs").glob("*.antt")) if file.stem != "Lib"]
    modules = {module.name: module for module in map(Module, files)}
    believed = [module for module in modules.values() if not module.name.split("/")[1].startswith("Inner")]
    seen = reached(modules)
    faults = [f"{name}: {definition} is reached from {seen[name, definition]}, and stands in an Inner file" for name, definition in seen
              if name.split("/")[1].startswith("Inner")]
    faults += [f"{module.name}: {definition} is reached from nothing stated; it belongs in an Inner file" for module in believed
               for definition in module.lines if (module.name, definition) not in seen]
    text = PAGE.read_text(encoding="utf-8")
    rows, total = table(believed)
    if total > MOST_LINES:
        faults.append(f"{total} lines are to be believed, more than {MOST_LINES}")
    faults += [f"docs/PROOFS.md does not name the kit's `{name}`" for name in sorted({name for module in believed for name in module.kit})
               if f"| `{name}` |" not in text]
    if "--write" in sys.argv[1:]:
        match = page_table(text)
        PAGE.write_text(text[: match.start(1)] + rows + text[match.end(1) :], encoding="utf-8")
    elif page_table(text).group(1) != rows:
        faults.append("docs/PROOFS.md lists other files, definitions or lines: run tools/believed.py --write and read what changed")
    print("\n".join(faults) if faults else f"{total} lines in {len(believed)} files are to be believed, and nothing else is reached")
    sys.exit(1 if faults else 0)


main()
