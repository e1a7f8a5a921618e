"""The stored cases of `first`, a function for each group."""

from case_lines import GAPS, INFINITE, MANY, ONE, PLAN, SIGN
from case_lines import between_good_lines, rate, reduce, spoiled
from stored_figures import GREATEST, LEAST, NANS, minus
from stored_products import NAN, NOT_NORMAL, STRIDES
from stored_products import laid, rates, refused, run, with_rate

# Values that are tested at a time, and the least whose square is a normal number.
CHUNK = 2048
ROOT = rate(ONE, -511)


def first(*range_):
    reduce(*range_, "first")


def run_first(values, stride=1):
    run(values, stride, "first")


def runs_first(values):
    for stride in STRIDES:
        run_first(values, stride)


def positive(seed, count):
    """Rates with no sign: a test of many at a time lets them through."""
    return [value % SIGN for value in rates(seed, count)]


def with_bad(values, places, bad=0):
    return [bad if place in places else value for place, value in enumerate(values)]


# ---- which rates are bad


def each_that_is_not_normal():
    """Each sort of bad rate, of both signs, and patterns of a NaN, and subnormals, which are not bad: as the only
    value, and among eight others."""
    for other in [*NOT_NORMAL, SIGN + 1, SIGN + ONE - 1, *NANS]:
        first([], [], 0, 0, 1, [other])
        run_first(with_rate(positive(181, 9), 5, other))


def normal_ends():
    """The least and the greatest normal numbers, and those about the least whose square is one: none is bad, alone,
    among others, and many of them. Behind many of them a bad rate is found."""
    for size in [LEAST, GREATEST, ROOT, ROOT - 1]:
        for value in [size, size + SIGN]:
            first([], [], 0, 0, 1, [value])
            run_first(with_rate(positive(182, 9), 4, value))
            run_first([value] * 17)
            run_first([*[value] * 17, SIGN])


def huge_and_tiny():
    """Rates whose product leaves the doubles, without a bad one and with one, or a subnormal, at the end: a product
    that is infinite or zero long before it says nothing."""
    for pair in [(GREATEST, GREATEST), (LEAST, LEAST), (GREATEST, LEAST), (rate(ONE, 900), rate(-ONE, -900))]:
        values = [*pair * 36, pair[0]]
        run_first(values)
        for other in [0, SIGN + 1, INFINITE, NAN]:
            run_first(with_rate(values, len(values) - 1, other))
    for values in [[GREATEST] * 1100, [LEAST] * 1100]:
        run_first(values)
        run_first(with_rate(values, 1099, SIGN + INFINITE))


def mixed_signs():
    """Negative rates before a bad one, or a subnormal, behind it, and everywhere; a negative one in one run, the other
    in another."""
    for other in [0, SIGN, 1, SIGN + 1, INFINITE, SIGN + INFINITE]:
        run_first(minus(with_rate(positive(183, 12), 9, other), [2]))
        run_first(minus(with_rate(positive(184, 12), 2, other), [9]))
        run_first(with_rate([value + SIGN for value in positive(185, 12)], 10, other), -1)
        # Rows of nine with a gap of two, of which the second has the sign and the last the other.
        table = minus(with_rate(positive(186, 42), 37, other), [13])
        first([9, 4], [1, 11], 0, 0, 36, table)
        first([9, 4], [1, 11], 0, 0, 31, table)
    runs_first([value + SIGN for value in positive(187, 20)])


# ---- which of them is the first


def first_of_two():
    """Two bad rates and three: the first by its element number is found, whatever the sort of the others. And a bad
    rate behind a subnormal, which is passed over."""
    for places in [[2, 6], [0, 8], [3, 4, 5], [7, 8], [1]]:
        runs_first(with_bad(rates(191, 9), places))
    for one, other in [(0, NAN), (NAN, 0), (INFINITE, SIGN), (1, SIGN + INFINITE)]:
        runs_first(with_rate(with_rate(rates(192, 20), 4, one), 12, other))


def higher_offset_first():
    """Two bad rates of which the one with the lower element number has the higher offset: runs and rows backwards, and
    rows that reach into each other; and two layouts where whoever numbers the elements by the axes as they are given
    finds the other. The axes stand in both orders."""
    for sizes, strides, base, places in [
        ([9], [-1], 8, [2, 6]),
        ([9], [-2], 16, [4, 12]),
        ([3, 4], [2, 3], 0, [3, 4]),
        ([3, 4], [1, 4], 0, [2, 4]),
        ([3, 4], [1, 3], 0, [2, 3]),
        ([4, 3], [1, -5], 10, [1, 11]),
        ([4, 3], [-1, 5], 3, [1, 2]),
        ([4, 3], [-1, -5], 13, [1, 12]),
        ([2, 2], [2, -2], 2, [0, 4]),
    ]:
        table = with_bad(rates(193, 17), places)
        total = sizes[0] * (sizes[1] if len(sizes) > 1 else 1)
        for turned in [slice(None), slice(None, None, -1)] if len(sizes) > 1 else [slice(None)]:
            first(sizes[turned], strides[turned], base, 0, total, table)


def visited_again():
    """A value that is visited more than once: its first element in the range counts."""
    table = with_bad(rates(194, 5), [2, 3])
    for start in range(9):
        first([3, 3], [1, 1], 0, start, 9, table)
    table = with_bad(rates(195, 9), [5])
    for start, end in [(0, 36), (5, 36), (6, 36), (6, 14), (6, 15), (33, 36)]:
        first([9, 4], [1, 0], 0, start, end, table)
        first([4, 9], [0, -1], 8, start, end, table)


def stride_0():
    """One value that is visited again and again, bad and not, and the last elements of 2^40."""
    for value in [*rates(196, 1), 0, INFINITE, NAN]:
        first([20], [0], 1, 3, 20, [0, value, NAN])
        first([MANY], [0], 0, MANY - 3, MANY, [value])
    first([5000], [0], 0, 0, 5000, [LEAST])
    for start in [MANY - 71, MANY - 70]:
        first([2, MANY // 2], [1, 0], 0, start, MANY, [*rates(197, 1), SIGN])


def subnormal_about_the_range():
    """A subnormal before the range, as its first, as its last, and behind it: none is bad."""
    for places in [[4], [5], [14], [15], [0, 19], [4, 15], [4, 9, 15]]:
        for stride in STRIDES:
            base, table = laid(with_bad(rates(201, 20), places, SIGN + 2), stride)
            first([20], [stride], base, 5, 15, table)


def only_in_gaps():
    """Bad rates that no element has: between those of a run, between runs, before the first and behind the last."""
    between = [value for pair in zip(rates(202, 10), [0, NAN] * 5) for value in pair]
    for stride, base in [(2, 0), (2, 1), (-2, 18), (-2, 19)]:
        first([10], [stride], base, 0, 10, between)
    rows = with_bad(rates(203, 22), [0, 1, 6, 11, 16, 21], INFINITE)
    for places in [[], [8], [20], [2], [5, 7]]:
        first([4, 4], [1, 5], 2, 0, 16, with_bad(rows, places))
        first([4, 4], [-1, -5], 20, 0, 16, with_bad(rows, places))
    first([3, 3], [2, 7], 1, 0, 9, with_bad(rates(204, 22), [0, 2, 4, 6, 7, 9, 11, 13, 14, 20, 21]))
    first([1, 1], [5, 9], 3, 0, 1, with_bad(rates(205, 12), [0, 1, 2, 4, 8]))
    first([1, 1], [5, 9], 3, 0, 1, with_bad(rates(205, 12), [3]))


# ---- where it stands


def each_place_of_a_run():
    """Runs with and without whole vectors of eight, of normal rates, and with one that is not at each place in turn."""
    for length in [1, 7, 8, 9, 15, 16, 17]:
        run_first(positive(length, length))
        for place in range(length):
            run_first(with_rate(positive(length, length), place, NOT_NORMAL[place % len(NOT_NORMAL)]))
    for stride in [2, -1]:
        for place in range(9):
            run_first(with_rate(positive(211, 9), place, NOT_NORMAL[place % len(NOT_NORMAL)]), stride)


def ranges_inside_runs():
    """Ranges that begin and end inside runs, in rows with a gap: the number is that of the layout, not of the range."""
    for stride in STRIDES:
        base, table = laid(with_bad(rates(212, 44), [14, 30]), stride)
        for start, end in [(0, 36), (3, 36), (12, 13), (13, 36), (5, 12), (13, 26), (13, 27), (27, 36)]:
            first([9, 4], [stride, 11 * stride], base, start, end, table)


def ends_of_chunks():
    """A bad rate beside the end of a chunk, and a subnormal in the last place, forwards and backwards; a bad rate at
    stride 2, which has room for one chunk; in a range and in rows, whose chunks begin with the range and with the row;
    a subnormal in as many values as a line may have, and none."""
    for place in [CHUNK - 1, CHUNK, CHUNK + 1, 2059]:
        for stride in [1, -1]:
            run_first(with_rate(positive(213, 2060), place, NOT_NORMAL[place % len(NOT_NORMAL)]), stride)
    for place in [CHUNK // 2 - 1, CHUNK // 2, CHUNK - 2, CHUNK - 1]:
        run_first(with_rate(positive(214, CHUNK), place, INFINITE), 2)
    for places in [[CHUNK], [2 * CHUNK - 1], []]:
        run_first(with_bad(positive(215, 2 * CHUNK), places, ONE - 1))
    for place in [CHUNK - 1, CHUNK]:
        first([4000], [1], 20, 7, 3990, with_rate(positive(216, 4030), 20 + 7 + place, SIGN))
        first([2050, 2], [1, 2040], 0, 3, 4100, with_rate(positive(217, 4090), 2040 + place, NAN))


def signs_in_chunks():
    """A negative rate in the first chunk and a bad one in the second; both in the second, in either order, one of these
    times with a subnormal for the bad one."""
    for sign, place, other in [(100, 3000, SIGN), (100, 2054, INFINITE), (2200, 3000, 1), (2800, 2200, 0)]:
        run_first(minus(with_rate(positive(218, 3200), place, other), [sign]))


# ---- many axes


def many_axes():
    """Five axes, nine and sixteen, of which no two fuse: a bad rate in the first element, in the last alone, and
    between."""
    for sizes, strides in [([2] * 5, [1, 3, 7, 15, 31]), ([2] * 9, list(range(3, 12))), ([2] * 16, list(range(3, 19)))]:
        total, reach = 2 ** len(sizes), sum(strides)
        for place in [0, reach // 2, reach]:
            first(sizes, strides, 2, 0, total, with_bad(rates(221, reach + 5), [1, 2 + place, reach + 3]))
        table = with_bad(rates(222, reach + 5), [5, 9, reach // 2])
        first(sizes, strides, 2, total // 2 + 1, total, table)
        first(sizes, [-stride for stride in strides], 2 + reach, 17, total, table)


def plan_of_nine_axes():
    """House, level, block, row, seat, day, hour, channel and class: a bad rate at the start of the second house, and
    none but in a gap."""
    values = rates(2026, 1 + sum((size - 1) * stride for size, stride in zip(PLAN, GAPS)))
    first(PLAN, GAPS, 0, 0, 1536, with_bad(values, [1506, 1507, 3005]))
    first(PLAN, GAPS, 0, 0, 1536, with_bad(values, [1506]))
    first(PLAN, GAPS, 0, 769, 1536, with_bad(values, [1506, 1507, 3005]))


# ---- refusals, malformed lines


def refusals():
    """Refusals 1 to 7 in rank, as of a reduction; a refused call with bad rates is refused all the same, and each
    refusal comes before the next."""
    refused(["first"])
    two = [0, NAN]
    for sizes, strides, base, start, end in [
        ([2], [], 0, 0, 2),
        ([1] * 17, [0] * 16, 0, 0, 1),
        ([1] * 17, [0] * 17, 0, 0, 1),
        ([2**63, 2, *[1] * 15], [0] * 17, 0, 0, 1),
        ([2, 2], [2**62, 0], 0, 0, 1),
        ([2**41], [2**23], 0, 0, 1),
        ([MANY + 1], [0], 0, 0, 1),
        ([MANY + 1], [0], 0, 1, 1),
        ([2], [1], 0, 1, 1),
        ([2], [1], 0, 3, 3),
        ([2], [1], 0, 0, 3),
        ([2], [1], 1, 0, 3),
        ([2], [1], 1, 0, 1),
        ([2], [1], 0, 0, 1),
    ]:
        first(sizes, strides, base, start, end, two)


def malformed():
    """Each word of a line of `first` in turn not of the format. The other lines have every wrong form of a word."""
    m = "3ff8000000000000"
    good = ["1", "2", "1", "1", "0", "0", "2", "2", m, m]
    wrong = [["x", "33"], ["-2"], ["x", "33"], ["-0"], ["+1"], ["-1"], ["02"], ["3", "4097"], ["1.5"], ["0"]]
    between_good_lines(spoiled("first", good, wrong))


GROUPS = [
    each_that_is_not_normal,
    normal_ends,
    huge_and_tiny,
    mixed_signs,
    first_of_two,
    higher_offset_first,
    visited_again,
    stride_0,
    subnormal_about_the_range,
    only_in_gaps,
    each_place_of_a_run,
    ranges_inside_runs,
    ends_of_chunks,
    signs_in_chunks,
    many_axes,
    plan_of_nine_axes,
    refusals,
    malformed,
]
