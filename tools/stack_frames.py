#!/usr/bin/env python3
"""The stack that the compiled calls take: a table of the functions of the static library, in bytes.

    python3 tools/stack_frames.py [crates/probe/out/libprobe.a]

A frame is the registers that a function pushes, the room that it takes off the stack pointer, what it uses below
that, as a function that calls nothing may, and the return address. The deepest stack of a function is its frame and
the deepest of those that it calls. A function that calls itself, through others too, is an error; what is called
outside the library (memcpy) is named and not counted.
"""

import re
import subprocess
import sys

LIBRARY = "crates/probe/out/libprobe.a"
WORD = 8
NAME = re.compile(r"^[0-9a-f]+ <(.+)>:$")
ROOM = re.compile(r"\bsub\s+\$0x([0-9a-f]+),%rsp")
BELOW = re.compile(r"-0x([0-9a-f]+)\(%rsp")
PUSH = re.compile(r"\bpush\s")
GIVEN_BACK = re.compile(r"\badd\s.*,%rsp$")
CALL = re.compile(r"\b(call|jmp)\s")
CALLED = re.compile(r"R_X86_64_(?:PLT32|PC32)\s+(\S+?)(?:-0x[0-9a-f]+)?$")


class Function:
    def __init__(self):
        self.pushes, self.room, self.below, self.calls = 0, 0, 0, set()

    def frame(self):
        return WORD * (1 + self.pushes) + self.room + self.below


def listing(library):
    command = ["objdump", "--disassemble", "--reloc", "--no-show-raw-insn", library]
    return subprocess.run(command, check=True, capture_output=True, text=True).stdout.splitlines()


def functions(lines):
    """Each function by its name. A relocation behind a call or a jump says what is called."""
    found, current, jumped = {}, None, False
    for line in lines:
        if name := NAME.match(line):
            current = found.setdefault(name.group(1), Function())
        elif called := CALLED.search(line):
            if current and jumped:
                current.calls.add(called.group(1).removeprefix(".text."))
        elif current:
            jumped = bool(CALL.search(line))
            take(current, line)
    if not found:
        raise ValueError("the library has no functions")
    return found


def take(function, line):
    """What the instruction takes of the stack."""
    if below := BELOW.search(line):
        function.below = max(function.below, int(below.group(1), 16))
    if PUSH.search(line):
        function.pushes += 1
    elif room := ROOM.search(line):
        function.room = max(function.room, int(room.group(1), 16))
    elif line.endswith(",%rsp") and not GIVEN_BACK.search(line):
        raise ValueError(f"the stack pointer moves in a way that is not counted: {line.strip()}")


def deepest(name, found, above=()):
    """The bytes of the deepest chain of calls from a function on, and the chain."""
    if name in above:
        raise ValueError(f"{name} calls itself")
    if name not in found:
        return 0, ()
    below = [deepest(one, found, above + (name,)) for one in sorted(found[name].calls)]
    size, chain = max(below, default=(0, ()), key=lambda one: one[0])
    return found[name].frame() + size, (name,) + chain


def print_table(found):
    print("| function | frame | deepest stack | along |")
    print("|---|---:|---:|---|")
    for name in sorted(found, key=lambda one: -deepest(one, found)[0]):
        size, chain = deepest(name, found)
        along = ", ".join(f"`{one}`" for one in chain[1:])
        print(f"| `{name}` | {found[name].frame():,} | {size:,} | {along} |")
    outside = sorted(set().union(*(one.calls for one in found.values())) - set(found))
    if outside:
        print(f"\nCalled outside the library and not counted: {', '.join(f'`{one}`' for one in outside)}.")


def main(args):
    if len(args) > 1:
        sys.exit("usage: stack_frames.py [LIBRARY]")
    try:
        print_table(functions(listing(args[0] if args else LIBRARY)))
    except (OSError, subprocess.CalledProcessError, ValueError) as error:
        sys.exit(f"stack_frames.py: {error}")


if __name__ == "__main__":
    main(sys.argv[1:])
