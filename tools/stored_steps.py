"""The stored cases of `step`, a function for each group.

Where a line follows another in a caller's loop, its bookmark is the one that the other's answer holds (bookmarks.py).
"""

from bookmarks import bookmarks, pieces
from case_lines import INFINITE, LEAST, LIMIT, MANY, MOST, ONE, OUT, SIGN, THREE_HALVES, TWO
from case_lines import WRONG_UNSIGNED
from case_lines import between_good_lines, floats, items, needed, patterns_of_m, rate, reduce, say, spoiled, unit
from stored_products import NAN, STRIDES, laid, rates, refused, with_rate

ALL = 2**64 - 1
# An accumulator that is refused wherever it is not ignored, and one that is not.
IGNORED = (NAN, LEAST, 1)
GOOD = (unit(THREE_HALVES), 5, 0)


def step(range_, next_, acc, count):
    sizes, strides, base, start, end, table = range_
    m, e, bad = acc
    say(f"step {items(sizes)} {items(strides)} {base} {start} {end} {floats(table)} {next_} {m:016x} {e} {bad} {count}")


def rows(start, end, stride=1, values=None):
    """Four rows of five with a gap of two: pieces begin at the start and at 5, 10 and 15."""
    base, table = laid(values or rates(301, 26), stride)
    return [5, 4], [stride, 7 * stride], base, start, end, table


def loop(range_, count):
    """A caller's loop, line by line."""
    step(range_, range_[3], IGNORED, count)
    for next_, acc in bookmarks(range_, count):
        step(range_, next_, acc, count)


def loops(range_):
    """Loops by one piece, by two, by all but one, by all, and by one more than there are; and the unbroken reduction."""
    total = len(list(pieces(range_)))
    for count in sorted({1, 2, total - 1, total, total + 1} - {0}):
        loop(range_, count)
    reduce(*range_)


# ---- callers' loops


def callers_loops():
    """Whole loops: a range that begins and ends inside runs, one that does so at their ends, and one inside a run."""
    for stride in STRIDES:
        for start, end in [(3, 17), (5, 15), (6, 9)]:
            loops(rows(start, end, stride))
    loops(rows(0, 20))


def bad_loops():
    """The same with a bad rate in the first piece, in two middle ones, and in the last: the mark is handed on, and m
    and e are those of the pieces before it; in the first piece they are that piece's own."""
    values = rates(302, 26)
    for stride in [1, 2]:
        for place, other, bad in [(4, 4, 0), (8, 15, NAN), (22, 22, SIGN + INFINITE)]:
            loops(rows(3, 17, stride, with_rate(with_rate(values, place, bad), other, bad)))


def long_pieces():
    """Runs of 70, worked in blocks and lanes, begun and ended inside a run: lanes begin anew with each piece."""
    for stride in STRIDES:
        base, table = laid(rates(303, 213), stride)
        for count in [1, 2]:
            loop(([70, 3], [stride, 71 * stride], base, 35, 199, table), count)


def layouts():
    """Fused axes, in both orders; rows that go back or are visited again; five axes, nine and sixteen, of which no two
    fuse, so that a bookmark sets every digit; axes of size 1."""
    for sizes, strides, base, start, end, count in [
        ([2, 3, 4], [1, 2, 7], 0, 2, 23, 1),
        ([4, 3, 2], [7, 2, 1], 0, 2, 23, 3),
        ([4, 3, 3], [1, -4, 20], 8, 1, 35, 2),
        ([3, 4], [1, 1], 0, 2, 12, 1),
        ([3, 4], [-1, 0], 2, 0, 11, 2),
        ([1, 3, 1, 4], [9, 2, 5, 7], 1, 1, 11, 2),
        ([2] * 5, [1, 3, 7, 15, 31], 0, 3, 32, 3),
        ([2] * 9, list(range(3, 12)), 0, 101, 300, 20),
        ([2] * 9, list(range(-3, -12, -1)), 63, 250, 270, 3),
        ([2] * 16, list(range(3, 19)), 0, 2**15 - 9, 2**15 + 8, 2),
    ]:
        range_ = sizes, strides, base, start, end, rates(304, needed(sizes, strides, base))
        loop(range_, count)
        reduce(*range_)


def far_ranges():
    """Ranges of up to 2^39 pieces, of which a few are worked, from their start, from far inside and up to the end."""
    for length in [2, 3]:
        times = MANY // 4
        total = length * times
        table = rates(305, length)
        range_ = [length, times], [1, 0], 0, 1, total, table
        for next_, count in [(1, 3), (length, 1), (2**32 // length * length, 2), (total - 3 * length, 2)]:
            step(range_, next_, GOOD, count)
        for count in [1, 2, 3, 2**32, ALL]:
            step(range_, total - 2 * length, GOOD, count)
        step(range_, total, GOOD, 1)
        loop(([length, times], [1, 0], 0, total - 3 * length - 1, total - 1, table), 2)
    range_ = [2, MANY // 2], [1, 0], 0, 0, MANY, rates(306, 2)
    for next_, count in [(0, 3), (MANY // 2, 3), (MANY - 2, ALL), (MANY, 1)]:
        step(range_, next_, GOOD, count)


def one_run():
    """One run, by one axis, by two that fuse, by stride 0 and of one element: one piece, and no other number than the
    start is taken."""
    for sizes, strides, start, end in [
        ([9], [2], 4, 7),
        ([3, 3], [3, 1], 0, 9),
        ([9], [0], 2, 9),
        ([], [], 0, 1),
        ([1, 1], [5, MOST], 0, 1),
    ]:
        range_ = sizes, strides, 0, start, end, rates(307, 17)
        for count in [1, ALL]:
            step(range_, start, IGNORED, count)
        for next_ in sorted({0, start + 1, end, 9} - {start}):
            step(range_, next_, GOOD, 1)


# ---- the count, the next number


def counts():
    """Every count about the pieces that are left, and those that are 0, 1 or 2 where 32 bits are kept of them."""
    range_ = rows(3, 17)
    for next_, acc in [(3, IGNORED), (10, GOOD)]:
        for count in [0, 1, 2, 3, 4, 5, 2**32, 2**32 + 1, 2**63, ALL]:
            step(range_, next_, acc, count)


def next_numbers():
    """Every number about a range whose ends lie inside runs: 15 but for the start and the multiples of the run length
    inside. Among them are multiples counted from the start, multiples outside, and the end; then far ones, which are
    multiples, or are where 32 bits are kept. And some about a range whose end is a multiple."""
    for next_ in [*range(22), 2**32 + 10, 2**63 + 2, 2**63 + 10, ALL - 5, ALL]:
        step(rows(3, 17), next_, GOOD, 1)
    for next_ in [0, 4, 5, 6, 10, 14, 15, 16, 20, 25, ALL]:
        step(rows(5, 15), next_, GOOD, 1)


# ---- the accumulator


def wrong_accumulators():
    """Every sort of m that is not in [1, 2), of both signs by turns, and exponents past both limits; some bad too."""
    outside = [m for m in patterns_of_m() if not unit(ONE) <= m <= unit(TWO - 1)]
    accs = [(m + SIGN * (place % 2), 0, 0) for place, m in enumerate(outside)]
    accs += [(unit(s), e, 0) for s in [THREE_HALVES, -ONE] for e in [LIMIT + 1, -LIMIT - 1, MOST, LEAST]]
    return accs + [(m, e, 1) for m, e, _ in accs[::3]]


def ignored_accumulators():
    """At the start each wrong accumulator is ignored, its mark too, and so is a good one: the first piece is taken as
    it is. The start lies inside a run, and at the beginning of one."""
    range_ = [2, 3], [1, 3], 0, 3, 5, rates(308, 8)
    for acc in [*wrong_accumulators(), GOOD, (*GOOD[:2], 1), (unit(ONE), LIMIT, 0)]:
        step(range_, 3, acc, 1)
    range_ = [2, 3], [1, 3], 0, 2, 6, rates(308, 8)
    for acc in [IGNORED, GOOD, (unit(ONE), -LIMIT, 0)]:
        for count in [1, 2]:
            step(range_, 2, acc, count)


def refusal_9():
    """Behind the start each wrong accumulator is refused, bad or not. Those at both ends of the limits are not."""
    range_ = [2, 3], [1, 3], 0, 1, 5, [unit(ONE)] * 8
    for acc in wrong_accumulators():
        step(range_, 2, acc, 1)
    for m in [ONE, 1 - TWO]:
        for e in [LIMIT, -LIMIT]:
            for bad in [0, 1]:
                step(range_, 4, (unit(m), e, bad), 1)


def raising(*parts):
    """Runs of two from element 2 on, whose accumulators have these exponents, or are bad where it is None. The first
    run comes before them, and between them are values that no element visits."""
    table = [unit(ONE), unit(ONE), NAN]
    for e in parts:
        table += [0 if e is None else rate(ONE, e), unit(ONE), NAN]
    return [2, len(parts) + 1], [1, 3], 0, 0, 2 * len(parts) + 2, table


def refusal_10():
    """Past 2^52 at the first join, at a middle one, at the last, and just not; in calls that end before that join and
    in ones that do not. So too past -2^52."""
    for sign in [1, -1]:
        range_ = raising(3 * sign, 2 * sign, sign)
        for left in [6, 5, 3, 2, 0]:
            for count in [1, 2, 3]:
                step(range_, 2, (unit(ONE), sign * (LIMIT - left), 0), count)
        # From the start the accumulator is ignored.
        step(range_, 0, (unit(ONE), sign * LIMIT, 0), 4)


def passed_and_back():
    """An exponent that passes a limit and would come back within the same call, beside one that only comes to it."""
    for sign in [1, -1]:
        for parts, e in [([1, -1], 0), ([3, -9, 1], 2), ([-5, 9, -9, 1], 3), ([1022, 1022, -1021], 2043)]:
            range_ = raising(*(sign * part for part in parts))
            step(range_, 2, (unit(-ONE), sign * (LIMIT - e), 0), len(parts) - 1)
            for left in [e, e + 1]:
                step(range_, 2, (unit(-ONE), sign * (LIMIT - left), 0), len(parts))


def carries():
    """10 is asked after the carry: one that takes the exponent past 2^52, and one that brings it back to -2^52. It is
    asked after each join, so the carry of a later join does not help."""
    range_ = [2, 3], [1, 3], 0, 0, 6, [unit(ONE)] * 3 + [unit(THREE_HALVES), unit(ONE), NAN] * 2
    for m in [ONE, THREE_HALVES]:
        for e in [LIMIT - 1, LIMIT, -LIMIT]:
            for count in [1, 2]:
                step(range_, 2, (unit(m), e, 0), count)
    range_ = raising(-1, 0)
    range_[5][3] = rate(THREE_HALVES, -1)
    for m in [ONE, THREE_HALVES]:
        for e in [-LIMIT, 1 - LIMIT]:
            step(range_, 2, (unit(m), e, 0), 2)


def bad_sides():
    """Where a side is bad there is no 10: a bad accumulator at a limit, a bad piece in place of the one that would
    pass, and one before it. A bad piece behind it comes too late."""
    for sign in [1, -1]:
        for parts, e, bad in [
            ([3, 2], LIMIT, 1),
            ([3, None], LIMIT, 1),
            ([None, 3], LIMIT, 0),
            ([2, None, 3], LIMIT - 2, 0),
            ([2, None, 3], LIMIT - 1, 0),
            ([3, 2, None], LIMIT - 4, 0),
            ([None, None], 7, 0),
            ([3, 2], 7, 1),
        ]:
            range_ = raising(*(part and sign * part for part in parts))
            for count in [1, len(parts)]:
                step(range_, 2, (unit(-THREE_HALVES), sign * e, bad), count)


# ---- refusals, malformed lines


def wrong(call, number):
    """Makes a call wrong by one refusal's condition, and by no other. The ones before it are made wrong after it."""
    if number == 1:
        call["strides"].pop()
    elif number == 2:
        call["sizes"] += [1] * 15
        call["strides"] += [1] * 15
    elif number == 3:
        call["strides"][0] = LEAST
    elif number == 4:
        call["sizes"].append(MANY)
        call["strides"].append(0)
    elif number in (5, 6):
        call["start" if number == 5 else "end"] = ALL
    elif number == 7:
        call["table"].pop()
    elif number == 14:
        call["count"] = 0
    elif number == 15:
        call["next"] = 13
    elif number == 9:
        call["m"] = unit(TWO - 1) + 1
    else:
        call["e"] = LIMIT


def ranks():
    """None, each refusal alone, and each with each of those that come after it: 1 to 7, 14, 15, 9, 10."""
    order = [1, 2, 3, 4, 5, 6, 7, 14, 15, 9, 10]
    alone = [[number] for number in order]
    pairs = [[later, number] for at, number in enumerate(order) for later in order[at + 1 :]]
    for numbers in [[], *alone, *pairs]:
        call = {"sizes": [5, 4], "strides": [1, 7], "start": 3, "end": 17, "next": 10, "m": GOOD[0], "e": 5, "count": 2}
        call["table"] = [rate(ONE, 1)] * 26
        for number in numbers:
            wrong(call, number)
        range_ = call["sizes"], call["strides"], 0, call["start"], call["end"], call["table"]
        step(range_, call["next"], (call["m"], call["e"], 0), call["count"])


def refused_ranges():
    """Refusals 1 to 7 as of a reduction, from the element number 0 on."""
    before = len(OUT)
    refused(["step"])
    OUT[before:] = [f"{line} 0 {GOOD[0]:016x} 5 0 1" for line in OUT[before:]]


def refusals_handed_in():
    """The numbers of the later refusals, and the first that is none."""
    for number in range(13, 17):
        say(f"finish refused {number}")


def malformed():
    """Each word of a line of `step` in turn not of the format, the next number and the count, which no other line has,
    in every wrong form; and a line without its accumulator."""
    m = "3ff8000000000000"
    good = ["1", "2", "1", "1", "0", "0", "2", "2", m, m, "0", m, "-7", "1", "1"]
    over_range = [["33"], ["-2"], ["33"], ["-0"], ["+1"], ["-1"], ["02"], ["3", "4097"], ["1.5"], ["0"]]
    bookmark = [WRONG_UNSIGNED, ["", "1.5", m[:-1]], ["", "-0", str(MOST + 1)], ["", "2", "true"]]
    lines = spoiled("step", good, [*over_range, *bookmark, [*WRONG_UNSIGNED, "-0", m]])
    between_good_lines([*lines, " ".join(["step", *good[:11], "1"])])


GROUPS = [
    callers_loops,
    bad_loops,
    long_pieces,
    layouts,
    far_ranges,
    one_run,
    counts,
    next_numbers,
    ignored_accumulators,
    refusal_9,
    refusal_10,
    passed_and_back,
    carries,
    bad_sides,
    ranks,
    refused_ranges,
    refusals_handed_in,
    malformed,
]
