#!/usr/bin/env python3
"""Prints each case of a file and its answer in plain words: show.py CASES ANSWERS.

Exit codes: 0 every line is a case; 3 some are malformed; 2 a wrong call; 1 anything else, said on standard error.
That a line is malformed is the program's word. What is wrong with it is the explanation of show_faults.py.
"""

import itertools
import os
import re
import signal
import struct
import sys

from show_faults import ANSWERS, OVER_VALUES, fault_of, shown_line

REFUSALS = os.path.join(os.path.dirname(os.path.abspath(__file__)), "..", "crates", "refusals", "src", "lib.rt")
# How many of a case's values are shown, how many of its ranges, and how many words of a job.
FEW = 4
FEW_RANGES = 16
JOB_WORDS = 16
# The answers that begin with a code, 0 or a refusal.
WITH_CODE = ("compile", "list", "job", "write", "ranges", "windows")
# The calls over a range that multiply bad rates as IEEE 754 does.
WITH_BAD_RATES = ("ordered", "figure")
# The kinds of a job's words, by their number.
KINDS = ("more", "size", "stride", "base", "start", "end", "finish", "unused")


class Failure(Exception):
    """What keeps the script from showing the cases, and what to do about it."""


# ---- a case in plain words


def take_list(words):
    """The first list of the words, and the words after it."""
    count = int(words[0])
    return words[1 : 1 + count], words[1 + count :]


def plain(items):
    return " ".join(items) if items else "none"


def shown_layout(words):
    sizes, rest = take_list(words)
    strides, rest = take_list(rest)
    return f"sizes {plain(sizes)}, strides {plain(strides)}", rest


def shown_range(words):
    """A layout, a base and a range, and the words after them."""
    layout, rest = shown_layout(words)
    base, start, end = rest[:3]
    return f"{layout}, base {base}, elements {start} to {end} (not included)", rest[3:]


def float_of(bits):
    return struct.unpack(">d", bytes.fromhex(bits))[0]


def shown_values(words):
    values, _ = take_list(words)
    text = " ".join([f"{len(values)} values", *(repr(float_of(value)) for value in values[:FEW])])
    return text + (f" .. and {len(values) - FEW} more" if len(values) > FEW else "")


def shown_acc(words):
    """An accumulator: m by its bits, e and the mark."""
    return f"{float_of(words[0])!r} × 2^{words[1]}" + (", bad" if words[2] == "1" else "")


def shown_sent(words):
    """The words of a job as they were sent: not what is told by them, which is the reader's answer."""
    sent = bytes(int(byte) for byte in take_list(words)[0])
    whole = [int.from_bytes(sent[at : at + 4], "little") for at in range(0, len(sent) - 3, 4)]
    text = ", ".join(f"{KINDS[word >> 29]} {word % 2**29}" for word in whole[:JOB_WORDS])
    text = f"{len(whole)} words, by kind and payload: {text}" if whole else "no word"
    text += f" .. and {len(whole) - JOB_WORDS} more" if len(whole) > JOB_WORDS else ""
    return text + (f"; and {len(sent) % 4} of the 4 bytes of another" if len(sent) % 4 else "")


def shown_step(words):
    """A range with its values, where the call goes on, and how many pieces it may work."""
    layout, rest = shown_range(words)
    start = shown_layout(words)[1][1]
    next_, *acc, count = take_list(rest)[1]
    begins = f", the start (ignored: {shown_acc(acc)})" if next_ == start else f" with {shown_acc(acc)}"
    return f"{layout}, {shown_values(rest)}; from element {next_}{begins}, at most {count} of the pieces"


def take_lists(words, count):
    """So many lists, and the words after them."""
    lists = []
    for _ in range(count):
        items, words = take_list(words)
        lists.append(items)
    return lists, words


def shown_buffers(words):
    """How long the places for several accumulators are."""
    lengths = ", ".join(str(len(buffer)) for buffer in take_lists(words, 3)[0])
    return f"buffers of {lengths} for m, e, bad"


def shown_ranges(words):
    """A layout and a base, the ranges, or both lists where they are no pairs, the values, and how long the buffers are."""
    layout, (base, *rest) = shown_layout(words)
    (starts, ends), rest = take_lists(rest, 2)
    pairs = [f"{start} to {end}" for start, end in zip(starts, ends)]
    text = f"ranges {', '.join(pairs[:FEW_RANGES])} (ends not included)" if pairs else "no range"
    text += f" .. and {len(pairs) - FEW_RANGES} more" if len(pairs) > FEW_RANGES else ""
    if len(starts) != len(ends):
        text = f"{len(starts)} starts and {len(ends)} ends"
    return f"{layout}, base {base}, {text}, {shown_values(rest)}, {shown_buffers(take_list(rest)[1])}"


def shown_windows(words):
    """The values, the width, and how long the buffers are."""
    width, *rest = take_list(words)[1]
    return f"{shown_values(words)}, each {width} in a row (ends not included), {shown_buffers(rest)}"


def shown_case(words, refusals):
    call = words[0]
    if call == "compile":
        return "compile: " + shown_layout(words[1:])[0]
    if call == "read":
        return "read: " + shown_sent(words[1:])
    if call == "list":
        layout, rest = shown_range(words[1:])
        return f"list: {layout}, {rest[0]} values, a buffer of {rest[1]}"
    if call == "write":
        layout, rest = shown_range(words[1:])
        return f"write: {layout}, a buffer of {rest[0]} bytes"
    if call == "step":
        return "step: " + shown_step(words[1:])
    if call == "ranges":
        return "ranges: " + shown_ranges(words[1:])
    if call == "windows":
        return "windows: " + shown_windows(words[1:])
    if call in OVER_VALUES:
        layout, rest = shown_range(words[1:])
        return f"{call}: {layout}, {shown_values(rest)}"
    if call == "join":
        return f"join: {shown_acc(words[1:4])}; and {shown_acc(words[4:7])}"
    return "finish: " + (shown_acc(words[2:5]) if words[1] == "acc" else shown_refusal(words[2], refusals))


# ---- an answer in plain words


def read_refusals(path=REFUSALS):
    """The name and the condition of each refusal, from the enum of the crate that is their home."""
    try:
        with open(path, encoding="utf-8") as file:
            text = file.read()
    except OSError as error:
        raise Failure(f"{path}, where the refusals are named, cannot be read ({error.strerror}); restore it") from error
    found = re.findall(r"^    //+ *(.+)\n    ([A-Z]\w*) = ([0-9]+),$", text, re.MULTILINE)
    if not found or len(found) != len(re.findall(r"^    [A-Z]\w* = [0-9]+,$", text, re.MULTILINE)):
        raise Failure(f"{path}: each refusal should stand as `Name = N,` below a line `// its condition`")
    return {int(code): (spelled(name), inside(condition)) for condition, name, code in found}


def spelled(name):
    """A variant's name as docs/RULES.md and the specs have it: OffsetOverflow is OFFSET_OVERFLOW."""
    return re.sub(r"(?<=[a-z])(?=[A-Z])|(?<=[A-Z])(?=[A-Z][a-z])", "_", name).upper()


def inside(sentence):
    """A sentence as a part of another."""
    text = sentence.strip().rstrip(".")
    return text[:1].lower() + text[1:] if text[1:2].islower() or text[1:2] == " " else text


def shown_refusal(code, refusals):
    """Finishing hands out any number that it was given, so not every one has a name."""
    if int(code) not in refusals:
        return f"refused {code}"
    name, condition = refusals[int(code)]
    return f"refused {code} ({name}): {condition}"


def shown_number(bits, call):
    """A number, and with a zero, an infinity or a NaN what may have brought it."""
    value = float_of(bits)
    if value != 0 and abs(value) < float("inf"):
        return repr(value)
    name = "NaN" if value != value else repr(value)
    return f"{name}: {reason_in_order(value) if call in WITH_BAD_RATES else reason_at_the_end(value, call)}"


def reason_at_the_end(value, call):
    """Of a finished number. No m is 0 or infinite, so a zero comes from underflow and an infinity from overflow."""
    if value != value:
        return "a bad rate came in" if call == "product" else "the accumulator is bad"
    way, size = ("underflow", "small") if value == 0 else ("overflow", "large")
    if call == "finish":
        return f"{way}, m × 2^e is too {size} for a double"
    return f"{way}, the product is too {size} for a double; reduce gives it as m × 2^e"


def reason_in_order(value):
    """Of an ordered product: a rate may have brought it, or a product on the way."""
    if value != value:
        return "a rate is a NaN, or an infinity met a zero"
    rate, size = ("0", "small") if value == 0 else ("infinite", "large")
    return f"a rate is {rate}, or the product became too {size} for a double"


def shown_axes(words):
    axes = [words[i : i + 3] for i in range(1, 1 + 3 * int(words[0]), 3)]
    if not axes:
        return "no outer axes"
    return "outer axes " + ", ".join(f"{size} by {step}, back by {reset}" for size, step, reset in axes)


def shown_offsets(case, words):
    """Those of the range; what the buffer has behind them is not the call's."""
    _, rest = shown_layout(case[1:])
    start, end = int(rest[1]), int(rest[2])
    return "offsets " + plain(take_list(words)[0][: end - start])


def shown_bad(case, element, offset):
    """The first bad rate: where it stands, and what it is. A subnormal number is none."""
    values, _ = take_list(shown_range(case[1:])[1])
    value = float_of(values[int(offset)])
    what = "a NaN" if value != value else f"{value!r}, a zero" if value == 0 else f"{value!r}, an infinity"
    return f"the first bad rate is element {element}, at offset {offset}: {what}"


def reduced_ranges(case):
    """The starts and the ends of the ranges, or of the windows, that a case asks for."""
    if case[0] == "ranges":
        return take_lists(shown_layout(case[1:])[1][1:], 2)[0]
    values, (width, *_) = take_list(case[1:])
    return range(len(values) - int(width) + 1), range(int(width), len(values) + 1)


def shown_accs(case, words):
    """Each range with its accumulator; what the buffers have behind them is not the call's."""
    starts, ends = reduced_ranges(case)
    accs = zip(*take_lists(words, 3)[0])
    text = "; ".join(f"{start} to {end}: {shown_acc(acc)}" for start, end, acc in zip(starts, ends, accs))
    return text or "accepted, with nothing to write"


def shown_job(words):
    """What was read: the places past the axes are left out."""
    count, numbers = words[0], words[1:]
    sizes, strides = (numbers[at : at + int(count)] for at in (0, 16))
    return "a job: " + shown_range([count, *sizes, count, *strides, *numbers[32:]])[0]


def shown_answer(case, words, refusals):
    kind, call = words[0], case[0]
    if kind == "refused" or (kind in WITH_CODE and words[1] != "0"):
        return shown_refusal(words[1], refusals)
    if kind == "job":
        return shown_job(words[2:])
    if kind == "write":
        return f"{words[2]} bytes: " + " ".join(take_list(words[3:])[0][: int(words[2])])
    if kind == "compile":
        return f"{words[2]} elements, runs of {words[3]} by {words[4]}, {shown_axes(words[5:])}"
    if kind == "list":
        return shown_offsets(case, words[2:])
    if kind in ("ranges", "windows"):
        return shown_accs(case, words[2:])
    if kind == "bad":
        return shown_bad(case, *words[1:])
    if kind == "none":
        return "no visited rate is bad"
    if kind == "done":
        return f"finished: {shown_acc(words[1:4])}; pieces worked: {words[4]}"
    if kind == "more":
        return f"not finished: element {words[1]} is next, with {shown_acc(words[2:5])}; pieces worked: {words[5]}"
    return shown_acc(words[1:4]) if kind == "acc" else shown_number(words[1], call)


# ---- all of it


def lines(path):
    """The lines of a file as the program reads them: what a newline ends, and what stands behind the last."""
    with open(path, "rb") as file:
        for line in file:
            yield line[:-1] if line.endswith(b"\n") else line


def check_pair(number, case, answer):
    """Each case has one answer, and an answer to another call means that one is missing or one too many."""
    if answer is None:
        raise Failure(f"fewer answers than cases: line {number} has none; the program stopped early, so run it again")
    if case is None:
        raise Failure(f"more answers than cases: answer {number} has no line; the answers are not those to this file")
    call, kind = case.split(b" ")[0].decode("latin-1"), answer.split(b" ")[0].decode("latin-1")
    if kind != "malformed" and kind not in ANSWERS.get(call, ()):
        raise Failure(f"answer {number}, {shown_line(answer)}, is none to line {number}, {shown_line(case)}")


def show(cases, answers):
    """Prints the pairs, and answers how many lines there are and how many of them are malformed."""
    refusals = read_refusals()
    number = malformed = 0
    for number, (case, answer) in enumerate(itertools.zip_longest(lines(cases), lines(answers)), 1):
        check_pair(number, case, answer)
        if answer == b"malformed":
            malformed += 1
            print(f"line {number}: {shown_line(case)}")
            print(f"    malformed: {fault_of(case) or 'the program does not read it, and this script sees no fault'}")
            continue
        words = case.decode("ascii").split(" ")
        print(shown_case(words, refusals))
        print("    " + shown_answer(words, answer.decode("ascii").split(" "), refusals))
    return number, malformed


def say(text):
    """To standard error, and on without a word where that is closed: the exit code tells all the same."""
    try:
        print(text, file=sys.stderr, flush=True)
    except OSError:
        pass


def main():
    if len(sys.argv) != 3:
        say("usage: show.py CASES ANSWERS")
        return 2
    try:
        count, malformed = show(*sys.argv[1:])
    except Failure as failure:
        sys.stdout.flush()
        say(f"show.py: {failure}")
        return 1
    sys.stdout.flush()
    if not malformed:
        return 0
    are = "line is" if count == 1 else "lines is" if malformed == 1 else "lines are"
    say(f"{malformed} of {count} {are} malformed")
    return 3


def guarded():
    """The exit code. A reader that has seen enough, such as `head`, ends the script without a word."""
    signal.signal(signal.SIGPIPE, signal.SIG_DFL)
    if sys.stdout is None:
        say("show.py: standard output is closed; send it to a file or a pipe")
        return 1
    sys.stdout.reconfigure(encoding="utf-8")
    try:
        return main()
    except OSError as error:
        if error.filename:
            say(f"show.py: cannot read {error.filename} ({error.strerror}); give another file")
        else:
            say(f"show.py: cannot write to standard output ({error.strerror}); make room, or send it elsewhere")
        return 1


if __name__ == "__main__":
    STATUS = guarded()
    # Not sys.exit: where standard output failed, that would try it again and end with another code.
    os._exit(STATUS)
