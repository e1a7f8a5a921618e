"""What is wrong with a malformed line, for show.py: the forms of the case format, with the limits that a line has."""

import re
import struct

# How many bytes of a line are shown.
LINE_SHOWN = 200
# The limits of the case format.
LINE_BYTES = 131072
AXES = 32
ITEMS = 4096
U32 = (0, 2**32 - 1)
U64 = (0, 2**64 - 1)
I64 = (-(2**63), 2**63 - 1)
BYTE = (0, 255)
# The calls, and how the answer to each begins where it is not `malformed`.
ANSWERS = {
    "compile": ("compile",),
    "list": ("list",),
    "reduce": ("acc", "refused"),
    "join": ("acc", "refused"),
    "finish": ("number", "refused"),
    "product": ("number", "refused"),
    "ordered": ("number", "refused"),
    "figure": ("number", "refused"),
    "first": ("bad", "none", "refused"),
    "read": ("job",),
    "write": ("write",),
    "step": ("done", "more", "refused"),
    "ranges": ("ranges",),
    "windows": ("windows",),
}
# The calls over a range with its values, or over several. Behind these `step` and `ranges` have more.
OVER_VALUES = ("reduce", "product", "ordered", "figure", "first", "step", "ranges")


class Fault(Exception):
    """What is wrong with a line."""


# ---- before the line is taken apart


def escaped(text):
    """Bytes as one line of printable ASCII: the others by their codes, and a backslash doubled."""
    names = {9: "\\t", 13: "\\r", 92: "\\\\"}
    return "".join(chr(b) if 32 <= b < 127 and b != 92 else names.get(b, f"\\x{b:02x}") for b in text)


def shown_line(line):
    more = len(line) - LINE_SHOWN
    return escaped(line[:LINE_SHOWN]) + (f" .. and {more} more bytes" if more > 0 else "")


def quoted(word):
    return f'"{word}"' if len(word) <= 40 else f'"{word[:40]}.."'


def check_bytes(line):
    """Faults that are seen before the line is taken apart into words."""
    if len(line) > LINE_BYTES:
        raise Fault(f"the line has {len(line)} bytes, and at most {LINE_BYTES} are read")
    if not line:
        raise Fault("the line is empty")
    if line.startswith(b"\xef\xbb\xbf"):
        raise Fault("a byte order mark stands in front; save the file without it, as plain ASCII")
    if line.startswith((b"\xff\xfe", b"\xfe\xff")):
        raise Fault("the file is UTF-16; save it as plain ASCII")
    if line.endswith(b"\r"):
        raise Fault("a carriage return stands at the end (a CRLF line end); end lines with a newline alone")
    other = re.search(rb"[^\x20-\x7e]", line)
    if other and other.group() == b"\t":
        raise Fault(f"a tab stands at column {other.start() + 1}; words have one space between them")
    if other:
        raise Fault(f"the byte {escaped(other.group())} stands at column {other.start() + 1}; a line is plain ASCII")
    check_spaces(line)


def check_spaces(line):
    if not line.strip():
        raise Fault("the line has spaces and no word")
    if line.startswith(b" "):
        raise Fault("a space stands in front of the first word")
    if line.endswith(b" "):
        raise Fault("a space stands behind the last word")
    double = line.find(b"  ")
    if double >= 0:
        raise Fault(f"two spaces stand at column {double + 1}; words have one space between them")


# ---- its words


def number_fault(word, least, most):
    digits = word[1:] if word[:1] == "-" else word
    if word[:1] == "+":
        return "a number has no plus in front"
    if not re.fullmatch("[0-9]+", digits):
        return "it is no whole number in decimal digits"
    if len(digits) > 1 and digits[0] == "0":
        return "a number has no zero in front"
    if word == "-0":
        return "0 has no minus"
    if word[0] == "-" and least == 0:
        return "it may not be below 0"
    if len(digits) > 20 or not least <= int(word) <= most:
        return f"it does not lie in {least} to {most}"
    return None


def float_fault(word):
    if re.fullmatch("[0-9a-f]{16}", word):
        return None
    if re.fullmatch("[0-9a-fA-F]{16}", word):
        return "the hex digits of a float are lower case"
    if word[:2] in ("0x", "0X"):
        return "the hex digits of a float have no 0x in front"
    if re.fullmatch("[0-9a-fA-F]+", word):
        return f"a float has 16 hex digits, those of its bits, and this has {len(word)}"
    if re.fullmatch(r"[+-]?[0-9]*\.?[0-9]+(e[+-]?[0-9]+)?", word):
        return f"a float is written by the 16 hex digits of its bits, here {struct.pack('>d', float(word)).hex()}"
    return "a float is the 16 lower-case hex digits of its bits"


class Words:
    """The words of a line, of which the first `at` are taken."""

    def __init__(self, words):
        self.words = words
        self.at = 0

    def take(self, what):
        if self.at == len(self.words):
            raise Fault(f"the line ends where {what} should stand")
        self.at += 1
        return self.words[self.at - 1]

    def wrong(self, what, fault):
        """A fault of the word that was taken last."""
        return Fault(f"word {self.at}, {quoted(self.words[self.at - 1])}, stands for {what}: {fault}")

    def number(self, what, limits):
        fault = number_fault(self.take(what), *limits)
        if fault:
            raise self.wrong(what, fault)
        return int(self.words[self.at - 1])

    def float(self, what):
        fault = float_fault(self.take(what))
        if fault:
            raise self.wrong(what, fault)

    def items(self, name, most, take):
        count = self.number(f"the count of the {name}s", U64)
        if count > most:
            raise self.wrong(f"the count of the {name}s", f"a line has at most {most} of them")
        for done in range(count):
            if self.at == len(self.words):
                raise Fault(f"the line ends after {done} of {count} {name}s; the count does not match the items")
            take(f"{name} {done + 1} of {count}")

    def end(self):
        more = len(self.words) - self.at
        if more:
            raise Fault(
                f"{more} {'word' if more == 1 else 'words'} too many: the line should end before word {self.at + 1}, "
                f"{quoted(self.words[self.at])}, unless a count does not match its items"
            )


# ---- what stands in a line of each call


def check_accumulator(words):
    words.float("m")
    words.number("the exponent e", I64)
    words.number("the bad mark", (0, 1))


def check_finish(words):
    kind = words.take("acc or refused")
    if kind == "acc":
        check_accumulator(words)
    elif kind == "refused":
        words.number("the number of a refusal", U32)
    else:
        raise words.wrong("what is finished", "it is neither acc nor refused")


def check_bytes_given(words):
    words.items("byte", ITEMS, lambda what: words.number(what, BYTE))


def check_values(words):
    words.items("value", ITEMS, words.float)


def check_buffers(words):
    """Places for several accumulators."""
    words.items("m place", ITEMS, words.float)
    words.items("e place", ITEMS, lambda what: words.number(what, I64))
    words.items("bad place", ITEMS, lambda what: words.number(what, BYTE))


def check_range(call, words):
    """A range by its two numbers, or several by two lists."""
    if call == "ranges":
        words.items("start", ITEMS, lambda what: words.number(what, U64))
        words.items("end", ITEMS, lambda what: words.number(what, U64))
    else:
        words.number("the start of the range", U64)
        words.number("the end of the range", U64)


def check_layout(call, words):
    """The calls that have sizes and strides first."""
    words.items("size", AXES, lambda what: words.number(what, U64))
    words.items("stride", AXES, lambda what: words.number(what, I64))
    if call != "compile":
        words.number("the base", I64)
        check_range(call, words)
    if call == "list":
        words.number("the length of the values", U64)
        words.items("place", ITEMS, lambda what: words.number(what, I64))
    if call == "write":
        check_bytes_given(words)
    if call in OVER_VALUES:
        check_values(words)
    if call == "step":
        words.number("the next element number", U64)
        check_accumulator(words)
        words.number("the count of pieces", U64)
    if call == "ranges":
        check_buffers(words)


def check_windows(words):
    check_values(words)
    words.number("the width of the windows", U64)
    check_buffers(words)


def check_call(call, words):
    """What stands behind the first word of a line."""
    if call == "join":
        check_accumulator(words)
        check_accumulator(words)
    elif call == "finish":
        check_finish(words)
    elif call == "read":
        check_bytes_given(words)
    elif call == "windows":
        check_windows(words)
    else:
        check_layout(call, words)
    words.end()


def check_line(line):
    check_bytes(line)
    words = Words(line.decode("ascii").split(" "))
    call = words.take("the call")
    if call not in ANSWERS:
        hint = "write it in lower case" if call.lower() in ANSWERS else "the calls are " + ", ".join(ANSWERS)
        raise Fault(f"the first word, {quoted(call)}, is no call; {hint}")
    check_call(call, words)


def fault_of(line):
    """What is wrong with a line, or None."""
    try:
        check_line(line)
    except Fault as fault:
        return str(fault)
    return None
