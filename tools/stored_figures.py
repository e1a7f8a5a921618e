"""The stored cases of `ordered` and `figure`, a function for each group."""

from case_lines import INFINITE, LISTED, MANY, ONE, SIGN, THREE_HALVES, TWO
from case_lines import between_good_lines, in_words, rate, reduce, unit
from stored_products import NAMED, NAN, NOT_NORMAL, STRIDES
from stored_products import about_the_ends, backwards, cuts, equal_strides, exchanged, five_axes, laid, malformed_ranges
from stored_products import mixed, nine_axes, rates, refused, run, with_rate

WORDS = ["ordered", "figure"]
HALF, QUARTER = rate(ONE, -1), rate(ONE, -2)
LEAST, GREATEST = ONE, INFINITE - 1
# Three values whose product in this order is 1 exactly. The middle one is 2^-1060, which is subnormal, and not bad.
SUBNORMAL_ONE = [rate(ONE, 1000), 2**14, rate(ONE, 60)]
NANS = [INFINITE + 1, NAN - 1, NAN, NAN + 1, SIGN + NAN, 2**64 - 1]


def both(*range_):
    """A range as an ordered product and as a figure."""
    in_words(WORDS, *range_)


def run_both(values, stride=1):
    for word in WORDS:
        run(values, stride, word)


def runs_both(values):
    for stride in STRIDES:
        run_both(values, stride)


def figure_past_a_subnormal(values, stride=1):
    """The figure with a subnormal in front, which is the finished number and not the ordered product: the values lie in
    other lanes, and their product is the same."""
    run([*SUBNORMAL_ONE, *values], stride, "figure")


def run_all(values, stride=1):
    """The ordered product, the figure, and the figure with a subnormal."""
    run_both(values, stride)
    figure_past_a_subnormal(values, stride)


def minus(values, places):
    return [value ^ SIGN if place in places else value for place, value in enumerate(values)]


# ---- plain products, their order, and what is visited


def named_products():
    """The products that the rules name, in order: exact ones, and a zero, which gives a figure."""
    for values in NAMED:
        runs_both(values)


def lengths():
    """Runs of one value to 300, without a subnormal and with one."""
    for length in [1, 2, 3, 7, 8, 9, 15, 16, 17, 63, 64, 65, 129, 300]:
        for stride in STRIDES:
            run_all(rates(length, length), stride)


def single_values():
    """One value of each sort, with no axis, one, and at stride 0: 1.0 times it is itself, and a NaN is the one NaN."""
    sizes = [0, 1, 2, ONE - 1, LEAST, LEAST + 1, unit(ONE), unit(TWO - 1), GREATEST, INFINITE]
    for value in [*sizes, *(size + SIGN for size in sizes), *NANS]:
        both([], [], 0, 0, 1, [value])
        both([1], [7], 1, 0, 1, [NAN, value, NAN])
        both([3], [0], 1, 2, 3, [NAN, value])


def the_order():
    """Nine values, turned round, with the first put last, and two neighbours exchanged: the last bits differ from those
    of the nine, and of the lanes. The first two are left as they are: their product is the same both ways."""
    values = rates(15065, 9)
    others = [exchanged(values, place) for place in range(1, 8)]
    for turned in [values, values[::-1], [*values[1:], values[0]], *others]:
        for stride in STRIDES:
            run_all(turned, stride)


def other_than_lanes():
    """Lanes, with a block and without, have other last bits than the ordered product."""
    for seed, count in [(361, 20), (363, 70), (363, 200)]:
        runs_both(rates(seed, count))


def one_product_through_all_runs():
    """The same values in runs of every length: one number, where the runs' own products, multiplied, give others."""
    for cut in cuts(rates(235, 24)):
        both(*cut)
    for cut in cuts([*SUBNORMAL_ONE, *rates(232, 21)]):
        both(*cut)


def ties():
    """Products of exactly half, to the even one below and above, and beside it."""
    for odd in [1, 3]:
        for beside in [0, -1, 1]:
            run_all([unit(ONE + odd), unit(THREE_HALVES + beside)])
            run_all([rate(ONE, 9), unit(-ONE - odd), unit(THREE_HALVES + beside)], 2)
    # Rounded up to 2, rounded down to 2, and not rounded.
    for pair in [(ONE + 1, TWO - 2), (ONE + 1, TWO - 1), (TWO - 1, TWO - 1), (ONE + 1, ONE + 1)]:
        run_all([unit(s) for s in pair], 2)


def ranges_inside_runs():
    """Ranges that begin and end inside runs, at each stride, in rows with a gap."""
    for stride in STRIDES:
        for values in [rates(141, 44), with_rate(rates(142, 44), 14, 2**40)]:
            base, table = laid(values, stride)
            for start, end in [(0, 36), (3, 36), (5, 11), (8, 10), (9, 18), (8, 19), (5, 29), (35, 36)]:
                both([9, 4], [stride, 11 * stride], base, start, end, table)


def visited_again():
    """Values that are visited more than once: at stride 0, in rows that come again, and at the end of 2^40."""
    for value in [*rates(61, 1), rate(ONE, 1), HALF, 1, SIGN, INFINITE, NAN]:
        for count in [1, 2, 9, 65]:
            both([count], [0], 1, 0, count, [NAN, value, NAN])
    for sizes, strides in [([70, 3], [1, 0]), ([3, 70], [0, 1]), ([20, 3, 2], [2, 0, 40]), ([9, 4, 5], [-1, 0, 0])]:
        both(sizes, strides, 8, 0, sizes[0] * sizes[1], rates(63, 90))
        both(sizes, strides, 8, 5, sizes[0] * sizes[1] - 7, with_rate(rates(64, 90), 8, ONE // 2))
    both([MANY], [0], 0, MANY - 70, MANY, rates(61, 1))
    both([2, MANY // 2], [1, 0], 0, MANY - 71, MANY, [rate(ONE, 30), 2**60])
    # Half of 2^-1074 is a tie, to zero; three quarters of 2^-1073 one, to 2^-1073: that product falls no further.
    for count in [1022, 1023, 1074, 1075, 1076]:
        both([count], [0], 0, 0, count, [HALF])
    for count in [2500, 2600, 4000]:
        both([count], [0], 0, 0, count, [rate(THREE_HALVES, -1)])


def layouts():
    """Axes in every order, fused and not, forwards and backwards: the values are multiplied as they are visited."""
    equal_strides(WORDS)
    backwards(WORDS)
    five_axes(WORDS)
    table = rates(143, 400)
    both([2] * 8, [1, 2, 4, 9, 18, 36, 72, 200], 0, 100, 256, table)
    both([2] * 8, [1, 2, 4, 9, 18, 36, 72, 200], 0, 3, 4, table)


def the_listed_layouts():
    """The list calls with few values. The value at the base is subnormal for the figures, and some ranges visit it."""
    for sizes, strides, base, start, end, length in LISTED:
        if length <= 256 and end - start <= 4096:
            values = rates(91, length)
            reduce(sizes, strides, base, start, end, values, "ordered")
            lowered = with_rate(values, base, 2**30) if 0 <= base < length else values
            reduce(sizes, strides, base, start, end, lowered, "figure")


def plan_of_nine_axes():
    nine_axes(WORDS)


# ---- zeros, infinities, NaNs


def signs_of_zero():
    """A zero of either sign among rates of either sign, in every place, alone, and several."""
    for place in range(3):
        for turned in [[], [0], [1], [2], [0, 1], [0, 2], [1, 2], [0, 1, 2]]:
            run_both(minus(with_rate(rates(151, 3), place, 0), turned), 1 + place % 2)
    for values in [[0, 0], [SIGN, SIGN], [SIGN] * 3, [0, SIGN], [0, SIGN, 0]]:
        runs_both(values)
    for zero in [0, SIGN]:
        for place in [0, 7, 8, 63, 64, 72]:
            run_both(with_rate(rates(152, 73), place, zero))


def signs_of_small_and_large():
    """Products that become zero, subnormal or infinite, with every sign."""
    for pair in [[LEAST, LEAST], [1, HALF], [1, rate(ONE, 1)], [GREATEST, GREATEST], [INFINITE, unit(THREE_HALVES)]]:
        for turned in [[], [0], [1], [0, 1]]:
            run_both(minus(pair, turned))
            run_both(minus([*pair, rate(THREE_HALVES, 900)], turned), 2)


def infinities():
    """An infinity times anything but a zero and a NaN stays one, and what has overflowed comes back by no rate."""
    for infinity in [INFINITE, SIGN + INFINITE]:
        for other in [1, ONE - 1, LEAST, unit(-ONE), GREATEST, INFINITE, SIGN + INFINITE]:
            run_both([infinity, other])
            run_both([other, infinity], 2)
    for values in [
        [GREATEST, rate(ONE, 1), LEAST, LEAST],
        [GREATEST, rate(ONE, 1), 1, 1],
        [rate(ONE, 1023), rate(-ONE, 1), *[LEAST] * 9],
        [rate(ONE, 600)] * 2 + [rate(ONE, -600)] * 2,
    ]:
        runs_both(values)
        run_both(values[::-1])


def infinity_and_zero():
    """An infinity and a zero give a NaN, next to each other or not; so do a product that overflowed and a zero, and
    one that came to zero and an infinity."""
    for infinity, zero in [(INFINITE, 0), (SIGN + INFINITE, 0), (INFINITE, SIGN), (SIGN + INFINITE, SIGN)]:
        for pair in [[infinity, zero], [zero, infinity]]:
            runs_both(pair)
            run_both([*rates(153, 5), pair[0], *rates(154, 70), pair[1], *rates(155, 2)])
    above_one = unit(ONE + 1)
    for values in [[GREATEST, GREATEST, 0], [LEAST, LEAST, INFINITE], [1, HALF, INFINITE], [GREATEST, above_one, SIGN]]:
        runs_both(values)
        # The same values in another order are no NaN, or are one by another step.
        runs_both(values[::-1])
    # Neither has overflowed: a large product and a small one.
    for values in [[GREATEST, unit(ONE), 0], [LEAST, HALF, INFINITE], [1, INFINITE], [ONE - 1, SIGN + INFINITE]]:
        run_both(values)


def nans():
    """A NaN of any pattern in the first place, inside, and in the last, before and behind a zero and an infinity."""
    for pattern in NANS:
        for place in [0, 1, 8, 40, 72]:
            run_both(with_rate(rates(156, 73), place, pattern), 1 + place % 2)
    for other in [0, SIGN, INFINITE, SIGN + INFINITE, 1, GREATEST]:
        run_both([NAN, other])
        run_both([other, SIGN + NAN, other], 2)
    runs_both([NAN] * 65)


# ---- among the subnormal numbers


def least_numbers():
    """Small and great subnormal numbers, and the least normal ones, times factors that leave half, less and more."""
    sizes = [1, 2, 3, 4, 5, 6, 7, 2**51 - 1, 2**51 + 1, ONE - 2, ONE - 1, LEAST, LEAST + 1, LEAST + 2, LEAST + 3]
    below_half, above_half = HALF - 1, HALF + 1
    factors = [HALF, QUARTER, below_half, above_half, rate(THREE_HALVES, -1), rate(THREE_HALVES, -2)]
    factors += [unit(ONE) - 2, unit(ONE) - 1, unit(ONE + 1), unit(THREE_HALVES), unit(THREE_HALVES) - 1, rate(ONE, 1)]
    for at, size in enumerate(sizes):
        for factor in factors:
            run_both(minus([size, factor], [0] if at % 2 else []))
        # The factor first, with the sign.
        run_both([SIGN + HALF, size], 2)


def bits_rounded_off():
    """For every count of bits that are rounded off: half, to even below and above, one less, one more, and all ones."""
    for bits in range(1, 55):
        half = 2 ** (bits - 1)
        halves = [(ONE >> bits << bits) + quotient * 2 * half + half for quotient in [0, 1, 2, 3]]
        for s in [*(s + beside for s in halves for beside in [-1, 0, 1]), TWO - 1]:
            if ONE <= s < TWO:
                run([rate(-s if bits % 2 else s, -1000), rate(ONE, -22 - bits)], 1, "ordered")
        figure_past_a_subnormal([rate(ONE, -1000), unit(TWO - 1), rate(ONE, -22 - bits)])


def pair_beside(product, side):
    """Two significands whose product is less or more than the given one, of 105 bits or 106, but not in 53 bits."""
    for number in range(1000):
        s = ONE + mixed(number) % ONE
        t = product // s + (1 if side > 0 else 0)
        if ONE <= t < TWO and 0 < side * (s * t - product) < 2**51:
            return s, t
    raise ValueError(f"no two significands beside {product}")


def rounded_once():
    """Products a little beside a tie of the subnormal numbers. Rounded to 53 bits they are that tie, so whoever rounds
    twice, as finishing a reduction does, goes wrong where the even number lies on the other side."""
    for odd in [1, 3, 5, 7, 9, 2**20 + 1, 2**20 + 3, 2**51 + 1, 2**51 + 3]:
        shift = 106 - odd.bit_length()
        for side in [-1, 1]:
            s, t = pair_beside(odd << shift, side)
            values = [rate(s, -500), rate(t, 104 - 1075 + 500 - shift)]
            run_all(values)
            run_all(minus(values, [0]), 2)


def down_and_up():
    """A product that becomes subnormal and grows again: the bits that it lost there stay lost. With no bad rate the
    figure is the finished number, which has lost none."""
    for bits in range(1, 55):
        half = 2 ** (bits - 1)
        tie = (ONE >> bits << bits) + half
        for s in [THREE_HALVES + 1, *(s for s in [tie, tie + 2 * half] if ONE <= s < TWO)]:
            values = [rate(s, -1000), rate(ONE, -22 - bits), rate(ONE, 500), rate(ONE, 522 + bits)]
            run_both(minus(values, [0] if bits % 2 else []))
        figure_past_a_subnormal([rate(TWO - 1, -1000), rate(ONE, -22 - bits), rate(-ONE, 1020)], 2)


def down_and_up_again_and_again():
    """Rounded off on the way many times, each time at another bit, through runs and their gaps."""
    values = [unit(THREE_HALVES), rate(ONE, -1010)]
    for place, value in enumerate(rates(161, 30, 0, 0)):
        values += [rate(ONE, -13 - place), value, rate(ONE, 13 + place)]
    runs_both(values)
    runs_both([*values, rate(ONE, 1000)])
    for cut in cuts([*values[:23], rate(ONE, 1010)]):
        both(*cut)


def growing_from_the_least():
    """2^-1074 times three halves, and 3 × 2^-1074 times five quarters, over and over: in order each product is rounded,
    and many are ties; times three quarters 2^-1074 stays as it is, and times one half it is zero. A figure comes down
    to so few digits only at its end."""
    for count in [1, 2, 3, 4, 5, 9, 90, 100]:
        run_both([1, *[unit(THREE_HALVES)] * count])
        run_both([SIGN + 3, *[unit(5 * 2**50)] * count])
    for last in [[], [HALF], [HALF, rate(ONE, 1000)], [HALF + 1] * 2]:
        run_both([1, *[rate(THREE_HALVES, -1)] * 70, *last])


# ---- the ends of the doubles


def about_both_ends():
    """Products about the greatest double and the least: one word rounds at each step, the other at last."""
    for values in about_the_ends():
        for stride in [1, 2]:
            run_both(values, stride)
        run_both(minus(values, [0]))
        run_both(values[::-1], -1)


def about_the_greatest():
    """The greatest double, half a step above it, which is a tie to infinity, a little less, and a little more."""
    halfway = 2**54 - 1
    # The two factors of `halfway`, 2^27 - 1 and 2^27 + 1, times 2^500 and 2^470; and factors a little less.
    minus_one, plus_one = (2**27 - 1) * 2**26, (2**27 + 1) * 2**25
    for s, t in [(minus_one, plus_one), (minus_one - 1, plus_one), (minus_one, plus_one - 1)]:
        first, second = rate(s, 526), rate(t, 497)
        run_all([first, second])
        run_all([second, SIGN + first], 2)
    for side in [-1, 1]:
        s, t = pair_beside(halfway << 51, side)
        run_all([rate(s, 500), rate(t, 523)])
        run_all([rate(s, 500), rate(-t, 523)], 2)
    for values in [[GREATEST, unit(ONE + 1)], [GREATEST, unit(ONE) - 1], [GREATEST, unit(ONE + 1), HALF]]:
        runs_both(values)


# ---- figures


def one_that_is_not_normal():
    """Each bad rate, and subnormals, in the first place, in a block only, in the last place of one, in the tail only,
    in the last: with a subnormal alone the figure is the finished number."""
    for index, other in enumerate(NOT_NORMAL):
        for place in [0, 37, 63, 66, 72]:
            run_both(with_rate(rates(20 + index, 73), place, other), 1 + place % 2)
        runs_both([*rates(index, 8), other])


def subnormal_rate_in_a_figure():
    """A subnormal rate in each sort of place, between rates that make up for it, so that the last bits are seen."""
    for length, places in [(9, range(9)), (73, [0, 1, 7, 8, 37, 63, 64, 66, 72]), (1024, [0, 255, 256, 512, 1023])]:
        for place in places:
            values = rates(171, length)
            for at, value in enumerate(SUBNORMAL_ONE, place - 1):
                values[at % length] = value
            run(values, 1, "figure")
            if length < 100:
                run_both(values, 2)


def beside_a_range():
    """Bad rates, and subnormals, before and after a range, between its elements and in the gaps are not seen: what
    another range of the same layout visits is its own."""
    for other in [0, 1, INFINITE, NAN]:
        values = rates(172, 20)
        values[4] = values[15] = other
        for stride in STRIDES:
            base, table = laid(values, stride)
            for start, end in [(5, 15), (4, 15), (5, 16), (0, 4), (16, 20), (0, 20)]:
                both([20], [stride], base, start, end, table)
            both([10], [stride], base + 5 * stride, 0, 10, table)
    between = [value for pair in zip(rates(173, 10), [0, NAN] * 5) for value in pair]
    both([10], [2], 0, 0, 10, between)
    both([10], [2], 1, 0, 10, between)
    # Rows of four with a gap of one: the second row has a zero, and so have the gaps.
    table = with_rate(with_rate(with_rate(rates(174, 15), 7, 0), 4, 0), 9, SIGN)
    for start, end in [(0, 4), (4, 8), (8, 12), (0, 12), (0, 6), (0, 7), (6, 7), (7, 12), (1, 4)]:
        both([4, 3], [1, 5], 0, start, end, table)


def one_in_a_row():
    """A zero, and a subnormal, in the first row, between, in the last, in ranges that begin and end inside rows."""
    for stride in STRIDES:
        for other in [SIGN, 2**20 + 1]:
            for place in [2, 16, 29]:
                base, table = laid(with_rate(rates(175, 35), place, other), stride)
                both([10, 3], [stride, 12 * stride], base, 0, 30, table)
                both([10, 3], [stride, 12 * stride], base, 3, 27, table)


def one_among_many():
    """As many values as a line may have, near 1, and one of them a zero: a figure where the product is a NaN. So too
    with a subnormal, whose figure is the product."""
    keep = [unit(ONE) - 1 - (mixed(place) >> 14) for place in range(4096)]
    both([4096], [1], 0, 0, 4096, with_rate(keep, 2000, 0))
    reduce([4096], [1], 0, 0, 4096, with_rate(keep, 2000, 2**51 + 1), "figure")
    reduce([4096, 2], [1, 0], 0, 3, 8190, with_rate(keep, 2, 0), "figure")


# ---- refusals, malformed lines


def refusals():
    """Refusals 1 to 7 in rank, as of a reduction; a refused call with bad rates is refused all the same."""
    refused(WORDS)
    for bad in [0, NAN]:
        both([2], [], 0, 0, 2, [bad] * 2)
        both([1] * 17, [0] * 17, 0, 0, 1, [bad] * 2)
        both([2, 2], [2**62, 0], 0, 0, 1, [bad] * 2)
        both([MANY + 1], [0], 0, 0, 1, [bad] * 2)
        both([2], [1], 0, 1, 1, [bad] * 2)
        both([2], [1], 0, 0, 3, [bad] * 3)
        both([2], [1], 1, 0, 1, [bad] * 2)


def malformed():
    """Words of lines of `ordered` and `figure` that are not of the format."""
    between_good_lines([line for word in WORDS for line in malformed_ranges(word)])


GROUPS = [
    named_products,
    lengths,
    single_values,
    the_order,
    other_than_lanes,
    one_product_through_all_runs,
    ties,
    ranges_inside_runs,
    visited_again,
    layouts,
    the_listed_layouts,
    plan_of_nine_axes,
    signs_of_zero,
    signs_of_small_and_large,
    infinities,
    infinity_and_zero,
    nans,
    least_numbers,
    bits_rounded_off,
    rounded_once,
    down_and_up,
    down_and_up_again_and_again,
    growing_from_the_least,
    about_both_ends,
    about_the_greatest,
    one_that_is_not_normal,
    subnormal_rate_in_a_figure,
    beside_a_range,
    one_in_a_row,
    one_among_many,
    refusals,
    malformed,
]
