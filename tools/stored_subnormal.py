"""The stored cases of subnormal rates, which count like others, a function for each group. Every word that has values
is asked.

A subnormal is given by its fraction, a whole number below 2^52 of units of 2^-1074: that is its bits, but for the sign.
"""

from case_lines import GAPS, INFINITE, LIMIT, MANY, ONE, PLAN, SIGN, THREE_HALVES, TWO
from case_lines import in_words, rate, reduce, unit
from stored_figures import GREATEST, HALF, LEAST, QUARTER
from stored_products import HIGH, LOW, NAN, STRIDES
from stored_products import laid, mixed, rates, run, runs, with_rate
from stored_ranges import SHARES, hall, one_run, ranges
from stored_search import CHUNK, first, positive, run_first, runs_first, with_bad
from stored_steps import GOOD, loop, raising, rows, step

NUMBERS = ["product", "ordered", "figure"]
# A fraction of mixed digits, 37 of them, and another of 52.
SOME, MORE = 0x1B3A96C5D1, 0xD9C3A5960F1E7
# The ends of the fractions, and of those with the highest digit; and the least normal numbers.
EDGES = [1, 2, 3, ONE // 2 - 1, ONE // 2, ONE // 2 + 1, ONE - 1, LEAST, LEAST + 1]


def of_digits(count):
    """Fractions of so many binary digits: the least, one of mixed digits, and the greatest."""
    least = 2 ** (count - 1)
    return sorted({least, least + mixed(count) % least, 2 * least - 1})


def subnormals(seed, count):
    """So many of both signs, of all counts of digits."""
    drawn = [mixed(seed * 10000 + place) for place in range(count)]
    return [((ONE + d % ONE) >> (1 + d // ONE % 52)) + (SIGN if d & 2**63 else 0) for d in drawn]


def lowered(values, places, seed=600):
    """The values, of which those at these places become subnormal."""
    low = subnormals(seed, len(values))
    return [low[place] if place in places else value for place, value in enumerate(values)]


def with_both(values, low, place, bad):
    """A subnormal in one place and a bad rate in another."""
    return with_rate(with_rate(values, low, SIGN + SOME), place, bad)


# ---- splitting


def every_shift():
    """Each count of digits that a fraction can have, by its least, a mixed and its greatest fraction: the only value,
    with the signs by turns; all of them with both signs, each as a range of its own; and as numbers, which they are."""
    every = [fraction for count in range(1, 53) for fraction in of_digits(count)]
    for place, fraction in enumerate(every):
        reduce([], [], 0, 0, 1, [fraction + SIGN * (place % 2)])
    signed = [fraction + sign for fraction in every for sign in [0, SIGN]]
    for stride in STRIDES:
        ranges(one_run(signed, stride), [(place, place + 1) for place in range(len(signed))])
    for count in range(1, 53):
        run([of_digits(count)[-1] - 2 ** (count // 2) // 2 + SIGN * (count % 2)], 1, "product")


def every_shift_among_others():
    """Each count of digits among ten normal rates, in every lane and at every stride by turns, some as figures too."""
    for count in range(1, 53):
        values = with_rate(rates(600 + count, 11), count % 11, of_digits(count)[-1] - count // 4 + SIGN * (count % 2))
        run(values, STRIDES[count % 3])
        if count % 2:
            run(values, STRIDES[count % 3], "figure")


def edges():
    """The ends of the fractions and the least normal numbers, by themselves and beside another rate."""
    for place, value in enumerate(EDGES):
        for word in ["product", "figure", "first"]:
            run([value + SIGN * (place % 2)], 1, word)
        run([*rates(601, 1), value], 2)
        run([value, SIGN + value])


# ---- lanes, blocks and rows


def lanes():
    """A subnormal in each lane in turn, and in the first again; one in all lanes, and two in each."""
    for place in range(9):
        runs(with_rate(rates(602, 17), place, SIGN * (place % 2) + SOME + place))
    runs([*subnormals(603, 8), *rates(603, 9)])
    runs([*rates(604, 5), *subnormals(604, 16)])


def blocks():
    """A block of 64 with a subnormal in its first place, inside, and in its last; the first of three blocks, the second,
    and the tail behind them; several in one block, and one in each. Beside rates at the bounds of a block."""
    for place in [0, 7, 29, 56, 63]:
        run(with_rate(rates(605, 64), place, MORE))
    for place in [5, 100, 197]:
        runs(with_rate(rates(606, 200), place, SIGN + SOME))
    for places in [[3, 11, 40], [10, 90, 150, 199]]:
        runs(lowered(rates(607, 200), places))
    for bound in [HIGH, LOW]:
        run([*[bound] * 63, MORE])
        run([SOME, *[SIGN + bound] * 70], 2)


def nothing_else():
    """Nothing but subnormals of all sorts, up to as many as a line may have."""
    for count in [2, 8, 9, 64, 65, 200, 512]:
        runs(subnormals(608, count))
    for word in NUMBERS:
        run(subnormals(609, 65), 2, word)
    run(subnormals(610, 4096))
    run(subnormals(611, 4096), -1)


def visited_again():
    """One that is visited again and again, at stride 0, in rows that come again, and at the end of 2^40."""
    for value in [1, SIGN + SOME, ONE - 1]:
        for count in [2, 9, 65, 1000]:
            reduce([count], [0], 1, 0, count, [NAN, value, NAN])
    table = lowered(rates(612, 9), [2, 7])
    for sizes, strides, base in [([9, 4], [1, 0], 0), ([4, 9], [0, -1], 8), ([5, 7], [2, 0], 0)]:
        reduce(sizes, strides, base, 3, 29, table)
    reduce([MANY], [0], 0, MANY - 70, MANY, [MORE])


def rows_with_gaps():
    """A subnormal in the first of four rows, between, in the last, in several; in the gaps, where no element has one;
    everywhere. The whole, and a range that begins and ends inside rows."""
    for stride in STRIDES:
        for places in [[1], [8], [22], [0, 9, 25], [5, 6, 12, 13, 19, 20], range(26)]:
            layout = hall(stride, lowered(rates(613, 26), places))
            for start, end in [(0, 20), (3, 17)]:
                reduce(*layout[:3], start, end, layout[3])


def layouts():
    """Five axes and nine, of which no two fuse, and axes of one |stride| both ways, with several subnormals."""
    for stride in STRIDES:
        base, table = laid(lowered(rates(614, 58), range(2, 58, 5)), stride)
        in_words(["reduce", "figure", "first"], [2] * 5, [stride * s for s in [1, 3, 7, 15, 31]], base, 3, 32, table)
    table = lowered(rates(615, 1 + sum((size - 1) * stride for size, stride in zip(PLAN, GAPS))), range(0, 3006, 90))
    reduce(PLAN, GAPS, 0, 0, 1536, table)
    for sizes, strides in [([3, 4], [1, -1]), ([4, 3], [-1, 1]), ([9, 2], [2, -2])]:
        reduce(sizes, strides, 4, 0, sizes[0] * sizes[1], lowered(rates(616, 21), [2, 5, 8]))


# ---- beside bad rates


def beside_a_bad_rate():
    """A subnormal before a bad rate and behind it, in its lane and in another: m and e beside the mark. At stride 1
    both are in them, at other strides what the lanes before the bad one had."""
    for bad in [0, SIGN + INFINITE, NAN]:
        for low, place in [(3, 11), (11, 3), (3, 4), (4, 3), (3, 19), (19, 3)]:
            runs(with_both(rates(621, 20), low, place, bad))
    for bad in [SIGN, NAN]:
        for low, place in [(30, 70), (70, 30), (5, 13), (13, 5)]:
            values = with_both(rates(622, 73), low, place, bad)
            run(values)
            run(values, 2)
    for place in [0, 4, 8]:
        runs(with_rate(subnormals(623, 9), place, INFINITE))


def bad_rows():
    """A subnormal in one row and a bad rate in another, before it and behind it, and both in one."""
    for stride in STRIDES:
        for low, place in [(1, 15), (15, 1), (8, 9), (22, 14)]:
            layout = hall(stride, with_both(rates(624, 26), low, place, NAN))
            reduce(*layout[:3], 0, 20, layout[3])


# ---- finished numbers


def back_among_the_doubles():
    """Products with large rates that come back among the normal numbers, to the least of them, beside it and past the
    greatest, or stay subnormal; and products that are zero. All at the end; in order, and so on the way too."""
    high, half_way = rate(ONE, 1023), rate(THREE_HALVES, 600)
    for values in [
        [1, rate(ONE, 52)],
        [1, rate(ONE, 51)],
        [SIGN + 1, rate(ONE, 1000)],
        [ONE - 1, rate(ONE, 1)],
        [ONE - 1, unit(ONE + 1)],
        [ONE - 1, unit(ONE) - 1],
        [ONE // 2, rate(ONE, 1)],
        [SIGN + ONE // 2 - 1, rate(ONE, 1)],
        [3, rate(THREE_HALVES, 1023)],
        [SOME, rate(TWO - 1, 1000)],
        [SOME, SIGN + MORE, half_way, high],
        [half_way, SOME, half_way, MORE],
        [1, 1, high, high],
        [1, high, high, rate(ONE, 51)],
        [1, high, high, rate(ONE, 52)],
        [GREATEST, GREATEST, 1],
        [1, 1],
        [SIGN + MORE, LEAST],
    ]:
        for word in NUMBERS:
            run(values, 2 - len(values) % 2, word)


def ties():
    """Halves of a unit, to the even one below and above, and a little less and more; so too where more digits are
    rounded off."""
    for place, fraction in enumerate([1, 3, 5, 7, ONE // 2 + 1]):
        for factor in [HALF, HALF - 1, HALF + 1]:
            run([fraction + SIGN * (place % 2), factor], 1, "product")
    for digits in [2, 3, 10, 26, 27, 40, 50]:
        half = 2 ** (digits - 1)
        for fraction in [half, 3 * half, half + 1]:
            run([rate(ONE, -digits), fraction], 2, "product")


def beside_a_tie(odd, side):
    """A fraction of 52 digits and a significand whose product, rounded to 53 digits, is the odd number times a power of
    two, but lies below it or above."""
    product = odd << (106 - odd.bit_length())
    for number in range(1000):
        fraction = ONE // 2 + mixed(number) % (ONE // 2)
        significand = product // (2 * fraction) + (1 if side > 0 else 0)
        if ONE <= significand < TWO and 0 < side * (2 * fraction * significand - product) < 2**51:
            return fraction, significand
    raise ValueError(f"no product beside {odd}")


def figures_that_are_finished():
    """Figures that are not the ordered product, though a subnormal is visited: digits that are lost on the way in order
    alone; a product that overflows on the way; other last bits by the lanes; and numbers that are rounded twice."""
    two = ["ordered", "figure"]
    huge = rate(ONE, 1000)
    for values in [
        [1, HALF, huge],
        [3, HALF, rate(ONE, 1)],
        [SIGN + MORE, QUARTER, rate(ONE, 2)],
        [huge, rate(ONE, 100), 1],
        [1, *[rate(THREE_HALVES, -1)] * 9, rate(ONE, 20)],
        [huge, *rates(633, 20), 2**14, rate(ONE, 60)],
        [huge, *rates(632, 70), 2**14, rate(ONE, 60)],
    ]:
        for word in two:
            run(values, 1, word)
            run(values, 2, word)
    # The even number of units lies on the other side of the tie than the product.
    for odd in [1, 3, 5, 2**20 + 1, 2**20 + 3, 2**51 + 1, 2**51 + 3]:
        fraction, significand = beside_a_tie(odd, 1 if odd % 4 == 1 else -1)
        for word in two:
            run([fraction, rate(significand, odd.bit_length() - 54)], 1, word)


def figures_in_order():
    """A bad rate beside a subnormal: the figure is the ordered product, in which a product that came to zero makes an
    infinity a NaN."""
    for values in [
        [SOME, SIGN],
        [0, SIGN + SOME],
        [SIGN + SOME, INFINITE],
        [INFINITE, 1, HALF],
        [SIGN + 1, HALF, INFINITE],
        [3, HALF, INFINITE],
        [NAN, MORE],
        [MORE, INFINITE, 0],
    ]:
        for word in ["product", "figure"]:
            run(values, 2, word)


# ---- the first bad rate


def first_past_subnormals():
    """Nothing but subnormals; a bad rate in each place among them; behind many, and behind one among normal rates."""
    for count in [1, 8, 17, 65]:
        runs_first(subnormals(641, count))
    for place in range(9):
        run_first(with_rate(subnormals(642, 9), place, [0, SIGN, INFINITE, NAN][place % 4]), STRIDES[place % 3])
    for bad in [SIGN, SIGN + INFINITE, NAN]:
        runs_first([*subnormals(643, 17), bad])
        run_first(with_both(rates(644, 20), 2, 16, bad))
        run_first(with_both(rates(644, 20), 16, 2, bad), 2)
    sizes, strides, base, table = hall(1, with_bad(lowered(rates(645, 26), [0, 8, 9, 16]), [5, 6, 17, 19], INFINITE))
    for start, end in [(0, 20), (0, 13), (12, 20), (14, 20)]:
        first(sizes, strides, base, start, end, table)


def first_in_each_place():
    """A bad rate in the places of a run at which the cases of `first` have a subnormal."""
    for place in [2, 3, 4, 10, 11, 12]:
        run_first(with_rate(positive(646, 17), place, SIGN + INFINITE))
    for stride in [2, -1]:
        for place in [2, 3, 4]:
            run_first(with_rate(positive(647, 9), place, SIGN), stride)
    for places in [[4], [5], [14], [15], [0, 19], [4, 15], [4, 9, 15]]:
        for stride in STRIDES:
            base, table = laid(with_bad(rates(648, 20), places, SIGN), stride)
            first([20], [stride], base, 5, 15, table)


def first_in_long_runs():
    """Beside the ends of chunks: a subnormal and a bad rate behind it; subnormals and a bad rate as the last; a bad
    rate as the last, forwards and backwards; none in as many subnormals as a line may have; and behind a sign."""
    for low in [CHUNK - 2, CHUNK - 1, CHUNK]:
        run_first(with_rate(with_rate(positive(651, 2060), low, MORE), low + 1, INFINITE))
    run_first([*subnormals(652, 2059), 0])
    for stride in [1, -1]:
        run_first(with_rate(positive(653, 2060), 2059, INFINITE), stride)
    for places in [[CHUNK], [2 * CHUNK - 1]]:
        run_first(with_bad(positive(654, 2 * CHUNK), places, SIGN))
    run_first(subnormals(655, 2 * CHUNK))
    run_first(with_rate(with_rate(positive(656, 3200), 2200, rates(656, 1)[0] | SIGN), 3000, SIGN + INFINITE))


# ---- steps and ranges


def callers_loops():
    """Loops by one piece and by three over rows with a subnormal in the first piece, in two middle ones, in the last;
    the same with a bad rate before it and behind it. And the unbroken reduction."""
    for stride in [1, 2]:
        tables = [lowered(rates(661, 26), places) for places in [[4], [8, 15], [22]]]
        tables += [with_both(rates(662, 26), low, place, 0) for low, place in [(8, 15), (15, 8)]]
        for table in tables:
            range_ = rows(3, 17, stride, table)
            for count in [1, 3]:
                loop(range_, count)
            reduce(*range_)


def limits_of_a_step():
    """A piece of 2^-1074 from a bookmark about -2^52 + 1074: to the limit, and past it, which a later piece would bring
    back; from a bad one, and behind a bad piece."""
    range_ = raising(0, 9)
    range_[5][3] = 1
    for left in [1073, 1074, 1075]:
        for count in [1, 2]:
            step(range_, 2, (unit(ONE), left - LIMIT, 0), count)
    step(range_, 2, (unit(-THREE_HALVES), -LIMIT, 1), 2)
    range_ = raising(None, 0)
    range_[5][6] = SIGN + 1
    step(range_, 2, (unit(ONE), -LIMIT, 0), 2)
    step(range_, 0, GOOD, 3)


def shares():
    """Shares of workers and other ranges, some with a subnormal, some with a bad rate, some with both; blocks too."""
    pairs = [*SHARES, (0, 20), (2, 5), (5, 15), (6, 7)]
    for stride in STRIDES:
        for places in [[8], [1, 15, 22], range(26)]:
            ranges(hall(stride, lowered(rates(671, 26), places)), pairs)
        for low, place in [(8, 15), (15, 8)]:
            ranges(hall(stride, with_both(rates(672, 26), low, place, SIGN)), pairs, 1)
        ranges(one_run(lowered(rates(673, 130), [20, 100]), stride), [(0, 130), (0, 64), (64, 128), (21, 100), (1, 66)])


GROUPS = [
    every_shift,
    every_shift_among_others,
    edges,
    lanes,
    blocks,
    nothing_else,
    visited_again,
    rows_with_gaps,
    layouts,
    beside_a_bad_rate,
    bad_rows,
    back_among_the_doubles,
    ties,
    figures_that_are_finished,
    figures_in_order,
    first_past_subnormals,
    first_in_each_place,
    first_in_long_runs,
    callers_loops,
    limits_of_a_step,
    shares,
]
