"""The stored cases of `ranges`, a function for each group.

A layout is a tuple of sizes, strides, base and table here, a list of ranges one of pairs, and the three buffers a list.
"""

from case_lines import GAPS, LEAST, MANY, MOST, ONE, PLAN, SIGN
from case_lines import WRONG_BYTES
from case_lines import apart, between_good_lines, floats, items, needed, patterns_of_m, rate, reduce, say, spoiled
from stored_products import NAN, NOT_NORMAL, STRIDES, laid, rates, with_rate
from stored_search import with_bad
from stored_steps import ALL, rows, wrong

MS, ES, BADS = range(3)
# Three workers' shares of the twenty elements of `hall`, which end inside runs, and ranges over it that 5 and 6 refuse.
SHARES = [(0, 7), (7, 13), (13, 20)]
EMPTY, PAST = (9, 9), (9, 21)


def held(count):
    """Buffers of so many places, with what no call gives in them, another in each place."""
    places = range(count)
    return [[rate(ONE + i, 9) for i in places], [MOST - i for i in places], [255 - i % 200 for i in places]]


def call(layout, starts, ends, buffers):
    sizes, strides, base, table = layout
    ms, es, bads = buffers
    head = f"ranges {items(sizes)} {items(strides)} {base} {items(starts)} {items(ends)}"
    say(f"{head} {floats(table)} {floats(ms)} {items(es)} {items(bads)}")


def ranges(layout, pairs, more=0):
    """A list of ranges, with buffers that are longer by so many places, or shorter."""
    call(layout, *apart(pairs), held(len(pairs) + more))


def hall(stride=1, values=None):
    """Four rows of five with a gap of two."""
    sizes, strides, base, _, _, table = rows(0, 20, stride, values)
    return sizes, strides, base, table


def one_run(values, stride):
    base, table = laid(values, stride)
    return [len(values)], [stride], base, table


# ---- what is written


def plain():
    """Ranges that begin and end inside runs, at their ends, and inside one run; with no, one and three places behind,
    and each in a list of its own. At stride 0, as the run and as an outer axis."""
    pairs = [(3, 17), (0, 20), (5, 10), (6, 9), (4, 6), (10, 20)]
    for stride in STRIDES:
        for more in [0, 1, 3]:
            ranges(hall(stride), pairs, more)
    for pair in pairs:
        ranges(hall(), [pair])
    for sizes, strides in [([20], [0]), ([9, 3], [0, 1]), ([5, 4], [-1, 0])]:
        ranges((sizes, strides, 4, rates(401, 7)), pairs)


def long_runs():
    """Runs that are worked in blocks of 64 and in lanes: both begin anew with each range."""
    pairs = [(0, 260), (1, 260), (66, 195), (129, 131), (64, 128), (5, 70), (0, 64), (195, 260)]
    table = rates(404, 264)
    ranges(([130, 2], [1, 134], 0, table), pairs)
    ranges(([130, 2], [-1, -134], 263, table), pairs)
    for stride in STRIDES:
        ranges(one_run(rates(405, 73), stride), [(0, 73), (1, 65), (1, 66), (9, 73), (65, 73)])


def far_exponents():
    """Rates whose product leaves the doubles: what a range has is not handed on to the next."""
    for e in [-1022, -300, 300, 1023]:
        for stride in [1, 2]:
            ranges(one_run(rates(406, 20, e, e), stride), [(0, 20), (0, 10), (10, 20), (10, 11)])
    ranges(one_run(rates(407, 40, -1022, 1023), 1), [(0, 40), (0, 13), (13, 29), (29, 40)])


def layouts():
    """Fused axes, in both orders; rows that go back or are visited again; axes of size 1, and none at all; nine axes
    and sixteen, of which no two fuse. Ranges about two places in each, and its last elements."""
    for sizes, strides, base, total in [
        ([2, 3, 4], [1, 2, 7], 0, 24),
        ([4, 3, 2], [7, 2, 1], 0, 24),
        ([4, 3, 3], [1, -4, 20], 8, 36),
        ([3, 4], [1, 1], 0, 12),
        ([2, 3, 4], [12, 4, 1], 0, 24),
        ([1, 3, 1, 4], [9, 2, 5, 7], 1, 12),
        ([2] * 5, [1, 3, 7, 15, 31], 0, 32),
        ([2] * 9, list(range(3, 12)), 0, 512),
        ([2] * 9, list(range(-3, -12, -1)), 63, 512),
        ([2] * 16, list(range(3, 19)), 0, 2**16),
    ]:
        layout = sizes, strides, base, rates(408, needed(sizes, strides, base))
        one, two, far = total // 3, total - total // 3, min(total // 3, 60)
        about = [(one - far, one), (one, one + far), (two - 1, two + 1), (two, two + far)]
        ranges(layout, [*about, (total - 3, total)])
    for sizes in [[], [1], [1, 1, 1]]:
        ranges((sizes, [MOST] * len(sizes), 2, rates(409, 3)), [(0, 1), (0, 1)], 1)
    ranges((PLAN, GAPS, 0, rates(410, needed(PLAN, GAPS, 0))), [(0, 512), (512, 1024), (1024, 1536), (767, 769)])


def shares():
    """Ranges one behind the other, from 0 to the total, with the unbroken reduction beside them: cut where runs end,
    and inside them; into as many as there are elements, and into one. At stride 1 the lists are turned round too."""
    for stride in STRIDES:
        layout = hall(stride)
        for cuts in [[0, 10, 20], [0, 7, 13, 20], [0, 1, 19, 20], [0, 5, 6, 11, 20], list(range(21)), [0, 20]]:
            pairs = list(zip(cuts, cuts[1:]))
            ranges(layout, pairs)
            if stride == 1:
                ranges(layout, pairs[::-1])
        reduce(*layout[:3], 0, 20, layout[3])


def overlapping():
    """Ranges that overlap, that lie in each other, that are the same, side by side and apart; every range of a layout
    of four elements."""
    for stride in STRIDES:
        layout = hall(stride)
        ranges(layout, [(0, 12), (8, 20), (4, 16), (3, 17), (5, 10)])
        ranges(layout, [(3, 17)] * 4)
        ranges(layout, [(3, 17), (6, 9), (3, 17), (6, 9), (3, 17)])
    every = [(start, end) for start in range(4) for end in range(start + 1, 5)]
    ranges(([2, 2], [1, 3], 0, rates(411, 5)), every)
    ranges(([4], [1], 0, rates(412, 4)), every[::-1])


def single_elements():
    """Each element by itself, in order and from the last; some of them twice."""
    for stride in [*STRIDES, 0]:
        layout = one_run(rates(413, 9), stride) if stride else ([9], [0], 0, rates(413, 1))
        each = [(element, element + 1) for element in range(9)]
        ranges(layout, each)
        ranges(layout, each[::-1], 1)
    ranges(hall(), [(19, 20), (0, 1), (4, 5), (5, 6), (0, 1), (19, 20)])


def far_ranges():
    """A few elements at the beginning, about 2^32, and at the end of 2^40, and single ones: runs of one value, of two,
    and of three, which end anywhere."""
    ranges(([MANY], [0], 0, rates(414, 1)), [(MANY - 70, MANY), (2**39 + 1, 2**39 + 9)])
    single = [(element, element + 1) for element in [MANY - 1, MANY - 2, 2**32, 0]]
    ranges(([2, MANY // 2], [1, 0], 0, rates(415, 2)), single)
    total = 3 * (MANY // 4)
    few = [(0, 4), (2**32 - 2, 2**32 + 5), (total - 7, total), (total - 4, total - 1)]
    ranges(([3, MANY // 4], [1, 0], 0, rates(416, 3)), few)


# ---- bad rates


def bad_in_turn():
    """A bad rate in each of three shares in turn, in two, in all, and in none: bytes 0 and 1, where 255 stood."""
    for stride in STRIDES:
        values = rates(417, 21)
        for places in [[], [3], [10], [17], [3, 17], [10, 17], [3, 10, 17]]:
            layout = one_run(with_bad(values, places), stride)
            call(layout, [0, 7, 14], [7, 14, 21], [*held(3)[:BADS], [255] * 3])


def each_that_is_not_normal():
    """Each sort of bad rate, and subnormals, in the first place of a range, inside, in the last, beside two ranges that
    do not have it, and alone. The marks that the places held before are of no account."""
    for index, other in enumerate(NOT_NORMAL):
        for stride in [1, 2]:
            layout = one_run(with_rate(rates(418, 12), 5, other), stride)
            marks = [0, 1, 255, 1, 0, 7] if index % 2 else [1, 0, 0, 255, 1, 1]
            call(layout, [5, 3, 2, 6, 0, 5], [9, 8, 6, 12, 5, 6], [*held(6)[:BADS], marks])


def bad_rows():
    """A bad rate in a row and two in others: what comes before it in the range is kept, and each range has its own. Bad
    values in the gaps, which no range has."""
    values = rates(419, 26)
    for stride in STRIDES:
        for places in [[8], [1, 15], [22], [5, 6, 12, 13, 19, 20]]:
            ranges(hall(stride, with_bad(values, places, NAN)), [*SHARES, (0, 20), (2, 5), (5, 15), (10, 20), (6, 7)])


# ---- the buffers


def past_the_count():
    """Places past the count keep what they hold: in each buffer alone, in two of them, and in all."""
    for more in [[1, 0, 0], [0, 1, 0], [0, 0, 1], [5, 0, 2], [0, 3, 1], [2, 2, 2], [0, 0, 0]]:
        buffers = [held(3 + extra)[which] for which, extra in enumerate(more)]
        call(hall(), *apart(SHARES), buffers)
        call(hall(), *apart(SHARES[:1]), buffers)


def anything_held():
    """Buffers that hold every sort of float, the ends of the exponents and of the bytes: a refused call shows all of
    them, with the one NaN for each pattern of one, and an accepted call those past its count."""
    ms = [m + sign for m in patterns_of_m() for sign in [0, SIGN]]
    es = [LEAST, LEAST + 1, -1, 0, 1, MOST, 2**32, -(2**32)]
    bads = [0, 1, 2, 127, 128, 254, 255]
    for pairs in [[(0, 2)], [(2, 2)], []]:
        call(([2], [1], 0, rates(420, 2)), *apart(pairs), [ms, es, bads])


def empty_list():
    """No range: accepted, and nothing is written, whatever the lengths of the buffers; over a layout without elements
    too. The layout is asked all the same: 7 over too few values, and 1 to 4. One empty list beside another is 16."""
    two = rates(421, 2)
    accepted = [([2], [1], 0, two), ([], [], 1, two), ([0], [1], 0, two), ([3, 0], [1, 1], -5, [])]
    accepted.append(([0], [LEAST], MOST, []))
    outside = [([2], [1], 1, two), ([2], [1], -1, two), ([2], [-1], 0, two), ([2], [1], 0, []), ([], [], 2, two)]
    refused = [([2], [], 0, two), ([1] * 17, [1] * 17, 0, two), ([2], [LEAST], 0, two), ([MANY + 1], [0], 0, two)]
    for places in [0, 3]:
        for layout in [*accepted, *outside, *refused]:
            call(layout, [], [], held(places))
        call(accepted[0], [0], [], held(places))
        call(accepted[0], [], [2], held(places))
    call(accepted[0], [], [], [held(1)[MS], [], held(2)[BADS]])


# ---- refusals


def refusal_16():
    """Lists of different lengths, both ways, with buffers that are long enough for each of them; each buffer with no
    place, one place short and exactly full, beside others that are full or longer; all of them short."""
    for count, extra in [(1, 0), (3, 0), (3, 2)]:
        starts, ends = apart(SHARES[:count])
        uneven = [(starts, ends[:-1]), (starts[:-1], ends), (starts, [*ends, 20]), ([*starts, 19], ends), (starts, [])]
        for lists in uneven:
            call(hall(), *lists, held(count + 1 + extra))
        for which in [MS, ES, BADS]:
            for places in sorted({0, count - 1, count}):
                call(hall(), starts, ends, with_rate(held(count + extra), which, held(places)[which]))
    ranges(hall(), SHARES, -1)
    ranges(hall(), SHARES, -3)


def broken(call_, number):
    """Makes a call of three ranges wrong by one refusal's condition, and by no other: by its number, or by 16 in the
    list or the buffer that is named. Those before it are made wrong after it."""
    if number in (5, 6):
        call_["starts" if number == 5 else "ends"][1] = ALL
    elif number in ("starts", "ends"):
        call_[number].append(19)
    elif number in ("ms", "es", "bads"):
        call_[number].pop()
    else:
        wrong(call_, number)


def ranks():
    """None, each refusal alone, each with each of those that come after it, and with all of them: 1 to 4, 16, 5, 6, 7.
    The buffers stay."""
    sixteen = ["starts", "ends", "ms", "es", "bads"]
    order = [1, 2, 3, 4, *sixteen, 5, 6, 7]
    alone = [[number] for number in order]
    pairs = [[later, number] for at, number in enumerate(order) for later in order[at + 1 :] if number not in sixteen]
    pairs += [[later, number] for number in sixteen for later in [5, 6, 7]]
    for numbers in [[], *alone, *pairs, *(order[at:][::-1] for at in range(len(order)))]:
        call_ = {"sizes": [5, 4], "strides": [1, 7], "starts": [0, 7, 13], "ends": [7, 13, 20], "table": rates(422, 26)}
        call_["ms"], call_["es"], call_["bads"] = held(3)
        for number in numbers:
            broken(call_, number)
        layout = call_["sizes"], call_["strides"], 0, call_["table"]
        call(layout, call_["starts"], call_["ends"], [call_["ms"], call_["es"], call_["bads"]])


def faults_in_turn():
    """Range by range: a fault of 5 and one of 6 in each place of four, each alone, and each pair of them in either
    order, so 6 of an earlier range comes before 5 of a later; both in one range, which is 5. Over values that are too
    few as well: 5 and 6 before 7."""
    good = [*SHARES, (3, 17)]
    for fault in [EMPTY, PAST]:
        for place in range(4):
            ranges(hall(), with_rate(good, place, fault), 1)
    for first in range(4):
        for second in range(first + 1, 4):
            for faults in [(EMPTY, PAST), (PAST, EMPTY)]:
                ranges(hall(), with_rate(with_rate(good, first, faults[0]), second, faults[1]))
    for pair in [(22, 21), (21, 21), (ALL, ALL), (ALL, 21)]:
        ranges(hall(), [good[0], pair, good[1]])
        ranges(hall(), [PAST, pair])
    sizes, strides, base, table = hall()
    for pairs in [good, [*good, EMPTY], [*good, PAST], [EMPTY, *good], [PAST, *good], [PAST, EMPTY], [EMPTY, PAST]]:
        ranges((sizes, strides, base, table[:-1]), pairs)


def no_elements():
    """A layout of total 0 with a range: 5 or 6, by the first range, and never 7, wherever the base lies; 16 before."""
    pairs = [[(0, 0)], [(0, 1)], [(1, 1)], [(1, 0)], [(0, ALL)], [(ALL, 0)], [(0, 1), (0, 0)], [(0, 0), (0, 1)]]
    for layout in [([0], [1], 0, []), ([3, 0], [1, 3], -7, rates(423, 2)), ([0, 2**63], [1, 1], MOST, [])]:
        for some in pairs:
            ranges(layout, some)
        call(layout, [0], [], held(1))
        call(layout, [0], [1], held(0))


def limits():
    """An end at the total and one past it, a start one below its end and at it, behind a range that is good."""
    none, again = ([], [], 0, rates(425, 1)), ([MANY], [0], 0, rates(426, 1))
    for layout, total in [(hall(), 20), (one_run(rates(424, 9), 2), 9), (none, 1), (again, MANY)]:
        last = total - 1
        for pair in [(last, total), (last, total + 1), (total, total), (total, total + 1), (last, last)]:
            ranges(layout, [(0, 1), pair])


def largest_numbers():
    """Starts and ends of 2^64 - 1 and about other limits of 32, 63 and 64 bits, each way, as the first range and as the
    last. Where 32 bits are kept some would be ranges."""
    for number in [ALL, 2**63, 2**32, 2**32 + 5]:
        for pair in [(0, number), (number, 9), (number - 1, number), (number, number)]:
            ranges(hall(), [pair, (3, 17)])
    for pair in [(0, ALL), (ALL, 9), (ALL, ALL), (2**32, 2**32 + 5)]:
        ranges(hall(), [(3, 17), pair])


def elements_outside():
    """7 by the base, by a value too few, by an element that the range does not visit; a base that fits beside each."""
    for sizes, strides, bases in [
        ([4], [1], [2, 3, -1]),
        ([4], [-1], [5, 6, 2]),
        ([2, 3], [1, -2], [4, 5, 3]),
        ([5], [0], [5, 6, LEAST]),
        ([1], [MOST], [5, 6, MOST]),
        ([2, 2], [MOST, MOST], [1]),
    ]:
        for base in bases:
            ranges((sizes, strides, base, rates(427, 6)), [(0, 1)], 1)


# ---- how long a line may be, malformed lines


def longest_lists():
    """Lists of 4,096 ranges with as many places; the same with a fault in the last range; with too few places, and with
    an end less. The longest numbers."""
    layout = [9], [1], 0, rates(428, 9)
    starts = [place % 9 for place in range(4096)]
    ends = [9 if place % 5 else start + 1 for place, start in enumerate(starts)]
    for last in [8, 9]:
        call(layout, [*starts[:-1], last], [*ends[:-1], 9], [[0] * 4096, [7] * 4096, [255] * 4096])
    call(layout, starts, ends, held(9))
    call(layout, starts, ends[:-1], held(9))
    call(([ALL] * 32, [LEAST] * 32, LEAST, []), [ALL] * 9, [ALL] * 9, [[NAN] * 9, [LEAST] * 9, [255] * 9])


def malformed():
    """Each word of a line in turn not of the format: those of the lists and of the buffers, which no other line has, in
    several wrong forms; a line without its starts; 4,097 items in each of these."""
    m = "3ff8000000000000"
    good = ["1", "2", "1", "1", "0", "1", "0", "1", "2", "2", m, m, "1", m, "1", "-7", "1", "255"]
    count, number = ["x", "-1", "2", "4097"], ["", "+1", "-1", "01", str(ALL + 1)]
    layout = [["33"], ["-2"], ["33"], ["-0"], ["+1"]]
    lists = [count, number, count, number, ["3", "4097"], ["1.5"], ["0"]]
    ms, es = ["", "1.5", m[:-1], m.upper()], ["", "+1", "-0", "01", str(MOST + 1)]
    lines = spoiled("ranges", good, [*layout, *lists, count, ms, count, es, count, WRONG_BYTES])
    lines.append(" ".join(["ranges", *good[:5], *good[7:]]))
    for place, word in [(5, "0"), (7, "2"), (12, m), (14, "0"), (16, "1")]:
        lines.append(" ".join(["ranges", *good[:place], "4097", *[word] * 4097, *good[place + 2 :]]))
    between_good_lines(lines)


GROUPS = [
    plain,
    long_runs,
    far_exponents,
    layouts,
    shares,
    overlapping,
    single_elements,
    far_ranges,
    bad_in_turn,
    each_that_is_not_normal,
    bad_rows,
    past_the_count,
    anything_held,
    empty_list,
    refusal_16,
    ranks,
    faults_in_turn,
    no_elements,
    limits,
    largest_numbers,
    elements_outside,
    longest_lists,
    malformed,
]
