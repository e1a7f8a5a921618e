"""The stored cases of `reduce`, `product` and `finish`, a function for each group."""

from math import isqrt

from case_lines import GAPS, INFINITE, LEAST, LIMIT, LISTED, MANY, MOST, ONE, PLAN, SIGN, THREE_HALVES, TWO
from case_lines import WRONG_FLOATS, WRONG_MARKS, WRONG_SIGNED, WRONG_UNSIGNED
from case_lines import finish, floats, in_words, patterns_of_m, rate, reduce, say, spoiled, unit

NAN = INFINITE + 2**51
# Zeros, subnormals, infinities and the NaN, with both signs where there are two. All but the subnormals are bad.
NOT_NORMAL = [0, SIGN, 1, ONE - 1, SIGN + 2**51 + 3, INFINITE, SIGN + INFINITE, NAN]
STRIDES = [1, 2, -1]
# The bounds within which a block of 64 is multiplied unsplit, each with the doubles above and below it.
HIGH, LOW = rate(ONE, 120), rate(ONE, -120)
BOUNDS = [HIGH, HIGH + 1, HIGH - 1, LOW, LOW - 1, LOW + 1]
# The values of the products that the rules name.
NAMED = [[unit(THREE_HALVES)] * 2, [rate(ONE, 1)] * 64, [0, rate(THREE_HALVES, 1)]]


def mixed(number):
    """64 bits that look random (splitmix64)."""
    number = (number + 1) * 0x9E3779B97F4A7C15 % 2**64
    number = (number ^ number >> 30) * 0xBF58476D1CE4E5B9 % 2**64
    number = (number ^ number >> 27) * 0x94D049BB133111EB % 2**64
    return number ^ number >> 31


def rates(seed, count, least=-3, most=2):
    """Rates of both signs that differ, with exponents from `least` to `most`.

    Their significands have all 53 bits, so that products in another order differ in their last bits.
    """
    drawn = [mixed(seed * 10000 + place) for place in range(count)]
    sizes = [rate(ONE + (d >> 12 | 1), least + (d % 2**11) % (most - least + 1)) for d in drawn]
    return [size + (SIGN if d & 2**11 else 0) for size, d in zip(sizes, drawn)]


def with_rate(values, place, value):
    return [*values[:place], value, *values[place + 1 :]]


def laid(values, stride):
    """A base and a table in which a run of this stride visits the values in order, with others between them."""
    if stride == -1:
        return len(values) - 1, values[::-1]
    table = rates(99, stride * (len(values) - 1) + 1)
    table[::stride] = values
    return 0, table


def run(values, stride=1, word="reduce"):
    """All values of one run."""
    base, table = laid(values, stride)
    reduce([len(values)], [stride], base, 0, len(values), table, word)


def runs(values, word="reduce"):
    for stride in STRIDES:
        run(values, stride, word)


def named_products():
    """The products that the rules name, at each stride, and as numbers."""
    for values in NAMED:
        runs(values)
        run(values, 1, "product")
        run(values, 2, "product")


def lengths():
    """Pieces with and without whole blocks of 64, with full lanes and others. With 16 lanes the longer ones differ."""
    for length in [1, 2, 7, 8, 9, 15, 16, 17, 63, 64, 65, 127, 128, 129, 1000]:
        runs(rates(length, length))


def bounds_of_a_block():
    """A rate at a bound of a block, or beside it, in the first place of a block, inside, in the last, in the tail."""
    for index, bound in enumerate(BOUNDS):
        for place in [0, 29, 63, 67]:
            sign = SIGN if (index + place) % 2 else 0
            run(with_rate(rates(place, 64 + place // 64 * 9), place, bound + sign))
    # In the second block only: the first is multiplied unsplit all the same.
    for bound in [HIGH + 1, LOW - 1]:
        run(with_rate(rates(7, 130), 64 + 21, bound))
    # Everywhere: eight in a lane stay inside the doubles.
    for bound in BOUNDS:
        run([bound] * 64)
        run([bound + (SIGN if place % 3 else 0) for place in range(73)])


def blocks_out_of_range():
    """Blocks whose lanes would leave the doubles, or lose bits below them, if they were multiplied unsplit."""
    for e in [121, 128, 135, 300, 1022, -121, -128, -135, -300, -1022]:
        runs(rates(abs(e), 66, e, e))
    for values in [[INFINITE - 1] * 70, [ONE] * 70, [INFINITE - 1, ONE] * 35, rates(5, 200, -1022, 1023)]:
        runs(values)


def one_that_is_not_normal():
    """Each bad rate, and subnormals, in the first place, in a block only, in the last place of one, in the tail only,
    in the last."""
    for index, other in enumerate(NOT_NORMAL):
        for place in [0, 37, 63, 66, 72]:
            values = with_rate(rates(20 + index, 73), place, other)
            run(values, 1)
            run(values, 2)
        # Alone, at every stride, and as the last of two and of nine: the ninth comes to the lane of the first.
        runs([other])
        runs([*rates(index, 1), other])
        runs([*rates(index, 8), other])
        run(with_rate(rates(index, 12), 5, other), 2, "product")


def several_that_are_not_normal():
    """Two bad rates, or one and a subnormal, in one lane, in two lanes, in a block and its tail; and 65 of one sort."""
    for first, second in [(3, 11), (3, 4), (30, 70), (71, 72)]:
        values = rates(first, 73)
        for pair in [(0, INFINITE), (NAN, 1), (SIGN, SIGN)]:
            runs(with_rate(with_rate(values, first, pair[0]), second, pair[1]))
    for other in NOT_NORMAL:
        runs([other] * 65)


def nan_in_a_block():
    """A NaN, of which every comparison with a bound is false, among rates inside the bounds; lanes that become one."""
    ones = [unit(ONE)] * 64
    for place in [0, 1, 7, 8, 56, 63]:
        run(with_rate(ones, place, NAN))
        run(with_rate(rates(place, 64), place, NAN))
    run([NAN] * 64)
    run([*ones, *with_rate(rates(1, 64), 9, NAN)])
    run([*with_rate(rates(2, 64), 9, NAN), *ones])
    run(with_rate(with_rate(ones, 5, INFINITE), 13, 0))
    run(with_rate(with_rate(ones, 5, 0), 13, SIGN + INFINITE))
    # Every pattern of a NaN is read as the one NaN.
    for pattern in [INFINITE + 1, NAN - 1, NAN + 1, SIGN + NAN, 2**64 - 1]:
        runs([pattern, *rates(3, 1)])
        run([*rates(4, 70), pattern])
        run([pattern], 1, "product")


def bad_pieces():
    """A bad rate in the first row, between, in the last: the left m and e are kept. Beside the range it is not seen."""
    for stride in STRIDES:
        for bad in [0, NAN]:
            for place in [2, 9, 11, 16, 29]:
                base, table = laid(with_rate(rates(31, 35), place, bad), stride)
                pitch = 12 * stride
                reduce([10, 3], [stride, pitch], base, 0, 30, table)
                reduce([10, 3], [stride, pitch], base, 3, 27, table)
    # The elements before and after the range, and the values before, after and between them.
    values = rates(32, 20)
    values[4] = values[15] = NAN
    for stride in STRIDES:
        base, table = laid(values, stride)
        reduce([20], [stride], base, 5, 15, table)
        reduce([20], [stride], base, 4, 15, table)
        reduce([20], [stride], base, 5, 16, table)
        reduce([10], [stride], base + 5 * stride, 0, 10, table)
    reduce([10], [2], 0, 0, 10, [value for pair in zip(rates(33, 10), [0] * 10) for value in pair])


def ranges_inside_runs():
    """Ranges that begin and end inside runs: lanes are counted from a piece's first value, not from its column."""
    for stride in STRIDES:
        base, table = laid(rates(41, 92), stride)
        for start, end in [(0, 84), (3, 84), (3, 20), (5, 24), (20, 22), (21, 42), (20, 43), (13, 71), (83, 84)]:
            reduce([21, 4], [stride, 23 * stride], base, start, end, table)
    table = rates(42, 264)
    for start, end in [(0, 260), (1, 260), (66, 195), (2, 131), (60, 190), (129, 131), (5, 69), (5, 70), (64, 128)]:
        reduce([130, 2], [1, 134], 0, start, end, table)
        reduce([130, 2], [-1, -134], 263, start, end, table)
    table = rates(43, 100)
    for start, end in [(0, 100), (1, 100), (7, 80), (36, 100), (35, 99), (99, 100)]:
        reduce([100], [1], 0, start, end, table)
        reduce([100], [-1], 99, start, end, table)


def equal_strides(words=("reduce",)):
    """Axes of one |stride| in both orders, which give other pieces if they go one way; stride 0 after all others."""
    table = rates(44, 120)
    for sizes, strides in [
        ([9, 11], [1, 1]),
        ([9, 11], [2, -2]),
        ([9, 11], [-1, 1]),
        ([3, 10, 4], [5, 5, -5]),
        ([3, 10, 4], [-7, 2, 7]),
        ([2, 9, 3], [0, 3, 0]),
        ([9, 2, 3], [-3, 0, 3]),
    ]:
        total = sizes[0] * sizes[1] * (sizes[2] if len(sizes) > 2 else 1)
        for turned in [slice(None), slice(None, None, -1)]:
            in_words(words, sizes[turned], strides[turned], 30, 0, total, table)
            in_words(words, sizes[turned], strides[turned], 30, 4, total - 3, table)


def backwards(words=("reduce",)):
    """Runs backwards in rows forwards, runs forwards in rows backwards, and both, which may fuse."""
    table = rates(51, 80)
    for sizes, strides, base in [
        ([13, 5], [-1, 15], 12),
        ([13, 5], [1, -15], 61),
        ([13, 5], [-1, -15], 75),
        ([13, 5], [-1, -13], 70),
        ([13, 5], [-2, 13], 27),
        ([5, 13], [13, -1], 12),
        ([5, 13], [-13, 1], 55),
    ]:
        for start, end in [(0, 65), (4, 60), (12, 14)]:
            in_words(words, sizes, strides, base, start, end, table)


def stride_0():
    """A value that is visited again and again, rows that are, and a few elements at the end of 2^40."""
    value = rates(61, 1)
    for count in [1, 2, 8, 9, 64, 65, 1000]:
        reduce([count], [0], 0, 0, count, value)
        reduce([count, 3], [0, 1], 2, 0, 3 * count, rates(62, 5))
    for sizes, strides in [([70, 3], [1, 0]), ([3, 70], [0, 1]), ([20, 3, 2], [2, 0, 40]), ([9, 4, 5], [-1, 0, 0])]:
        reduce(sizes, strides, 8, 0, sizes[0] * sizes[1], rates(63, 90))
        reduce(sizes, strides, 8, 5, sizes[0] * sizes[1] - 7, rates(63, 90))
    for other in NOT_NORMAL:
        reduce([20], [0], 1, 0, 20, [*value, other])
    reduce([MANY], [0], 0, MANY - 70, MANY, value)
    reduce([2, MANY // 2], [1, 0], 0, MANY - 71, MANY, rates(64, 2))
    reduce([2**20, 2**20], [0, 0], 0, 2**39 + 1, 2**39 + 9, value)
    for word in ["reduce", "product"]:
        reduce([70, 2000], [1, 0], 0, 0, 140000, rates(65, 70), word)


def ties_in_lanes():
    """Products of exactly half, and beside it: of two values in one lane, of two lanes, and of two pieces."""
    one = unit(ONE)
    for odd in [1, 3]:
        for beside in [0, -1, 1]:
            for sign in [1, -1]:
                pair = unit(ONE + odd), unit(sign * (THREE_HALVES + beside))
                runs([pair[0], *[one] * 7, pair[1]])
                runs([*pair])
                reduce([1, 2, 2], [5, 1, 3], 0, 0, 4, [pair[0], one, one, pair[1], one])
                run([*[one] * 3, pair[0], *[one] * 39, pair[1], *[one] * 30])
    # Rounded up to 2 in a lane, and a lane of ones and of numbers next to 2.
    for values in [(ONE + 1, TWO - 2), (TWO - 1, TWO - 1), (ONE + 1, ONE + 1)]:
        runs([value for s in values for value in [unit(s)] * 8])
        runs([value for s in values for value in [unit(-s)] * 35])


def about_the_ends():
    """Lists of values whose products pass the greatest double and the least, both ways, or just not."""
    greatest, least = INFINITE - 1, ONE
    above_one = unit(ONE + 1)
    return [
        [greatest, unit(ONE)],
        [greatest, above_one],
        [greatest, unit(TWO - 1) - 2**52],
        [rate(ONE, 1023), rate(ONE, 1)],
        [rate(ONE, 1022), rate(TWO - 1, 1)],
        [rate(ONE, 1000)] * 2 + [rate(ONE, -1000)] * 2,
        [rate(ONE, -1000)] * 2 + [rate(ONE, 1000)] * 2,
        [greatest, greatest, least, least],
        [least, unit(ONE)],
        [least, unit(TWO - 1) - 2**52],
        [least, rate(ONE, -1)],
        [least, rate(TWO - 1, -1)],
        [least, rate(TWO - 2, -1)],
        [least, rate(ONE, -52)],
        [least, rate(THREE_HALVES, -52)],
        [least, rate(ONE, -53)],
        [least, rate(ONE + 1, -53)],
        [least, rate(TWO - 1, -54)],
        [least, rate(ONE, -54)],
        [least, least],
    ]


def numbers():
    """Products as numbers about both ends of the doubles, with every sign of the outcome."""
    for values in about_the_ends():
        for stride in [1, 2]:
            run(values, stride, "product")
            run(with_rate(values, 0, values[0] + SIGN), stride, "product")
    # With all bits of a significand: below the least normal number some of them are rounded off.
    for e in [-20, 20]:
        for count in range(48, 58):
            run(rates(71, count, e, e), 1, "product")
    for e in [-2, 2]:
        run(rates(72, 1000, e, e), 1, "product")
        run(rates(72, 1000, e, e))


def refused(words):
    """Refusals 1 to 7 in rank, each with all that follow it and without."""
    two = rates(81, 2)
    for word in words:
        reduce([2], [1], 0, 0, 2, two, word)
        reduce([2**63, 2] * 5, [1], -1, 5, 4, [], word)
        reduce([2], [], 0, 0, 2, two, word)
        reduce([], [1], 0, 0, 1, two, word)
        reduce([2**63, 2, *[1] * 15], [LEAST] * 17, -1, 5, 4, [], word)
        reduce([1] * 17, [0] * 17, 0, 0, 1, two, word)
        reduce([1] * 16, [0] * 16, 0, 0, 1, two, word)
        reduce([2, *[1] * 16], [1] * 17, 0, 0, 2, two, word)
        reduce([MANY + 1, 2**30], [0, 0], -1, 5, 4, [], word)
        reduce([2**32, 2**32 - 1], [0, 0], -1, 5, 4, [], word)
        reduce([2**32, 2**32 - 1], [0, 1], -1, 5, 4, [], word)
        reduce([2, 2], [2**62, 0], 0, 0, 1, two, word)
        reduce([2], [LEAST], 0, 0, 1, two, word)
        reduce([MANY + 1], [0], -1, 5, 4, [], word)
        reduce([MANY + 1], [0], 0, 0, 1, two, word)
        reduce([2], [1], -1, 5, 4, [], word)
        reduce([2], [1], 0, 1, 1, two, word)
        reduce([0], [1], 0, 0, 0, two, word)
        reduce([2], [1], -1, 1, 3, [], word)
        reduce([2], [1], 0, 0, 3, rates(82, 3), word)
        reduce([0, 2], [1, 1], 0, 0, 1, two, word)
        reduce([2], [1], 0, 0, 2**64 - 1, two, word)
        reduce([2], [1], 0, 0, 2, two[:1], word)
        reduce([2], [1], 0, 0, 1, two[:1], word)
        reduce([2], [1], 1, 0, 2, two, word)
        reduce([2], [1], -1, 1, 2, two, word)
        reduce([2], [-1], 0, 0, 1, two, word)
        reduce([], [], 0, 0, 1, [], word)
        reduce([], [], 1, 0, 1, two, word)
        reduce([], [], 2, 0, 1, two, word)
        reduce([1], [MOST], MOST, 0, 1, two, word)
        reduce([2, 2], [MOST, MOST], 1, 0, 1, two, word)


def refused_reductions():
    """The refusals of a reduction, as a product too."""
    refused(["reduce", "product"])


def the_listed_layouts():
    """The list calls with few values, as reductions: the order of the axes, fusing, ranges, sizes 0 and 1, refusals."""
    for sizes, strides, base, start, end, length in LISTED:
        if length <= 256 and end - start <= 4096:
            reduce(sizes, strides, base, start, end, rates(91, length))


def nine_axes(words):
    """House, level, block, row, seat, day, hour, channel and class: the whole plan, and ranges that carry into the last axis."""
    values = rates(2026, 1 + sum((size - 1) * stride for size, stride in zip(PLAN, GAPS)))
    for start, end in [(0, 1536), (767, 769), (700, 1500)]:
        in_words(words, PLAN, GAPS, 0, start, end, values)


def plan_of_nine_axes():
    nine_axes(["reduce", "product"])


def most_values():
    """As many values as a line may have."""
    reduce([4096, 2], [1, 0], 0, 3, 8190, rates(101, 4096))


def named_finishes():
    """The numbers that the rules name."""
    for significand, e in [(ONE, -1075), (ONE + 1, -1075), (THREE_HALVES, -1074), (ONE, 1024), (-ONE, -2000)]:
        finish(unit(significand), e)


def ends_of_the_exponent():
    """Exponents at which a number becomes subnormal, zero, infinite or refused, and their neighbours."""
    low = [-2000, -1076, -1075, -1074, -1073, -1072, -1024, -1023, -1022, -1021]
    high = [-1, 0, 1, 1022, 1023, 1024, 1025, 2000, 2046, 2047]
    far = [LIMIT - 1, LIMIT, LIMIT + 1, MOST]
    for e in [*low, *high, *far, *(-e for e in far), LEAST]:
        for s in [ONE, ONE + 1, THREE_HALVES - 1, THREE_HALVES, THREE_HALVES + 1, TWO - 2, TWO - 1]:
            finish(unit(s), e)
            finish(unit(-s), e)


def subnormal_ties():
    """For every count of bits that are rounded off: half, to even below and above, one less, one more, and all ones."""
    for bits in range(1, 55):
        half = 2 ** (bits - 1)
        for quotient in [0, 1, 2, 3]:
            for s in [(ONE >> bits << bits) + quotient * 2 * half + half + beside for beside in [-1, 0, 1]]:
                if ONE <= s < TWO:
                    finish(unit(-s if bits % 2 else s), -1022 - bits)
        finish(unit(TWO - 1), -1022 - bits)


def finish_marks():
    """A bad accumulator is NaN whatever its m and e, and is refused as others are where they are out of range."""
    for s in [ONE, -ONE, THREE_HALVES, TWO - 1, 1 - TWO]:
        for e in [0, -1074, -1075, -5000, 1023, 1024, LIMIT, -LIMIT, LIMIT + 1, -LIMIT - 1, LEAST, MOST]:
            finish(unit(s), e, 1)
    for m in patterns_of_m():
        for sign in [0, SIGN]:
            for bad in [0, 1]:
                finish(m + sign, 0, bad)
    finish(0, LEAST)
    finish(NAN, LIMIT + 1, 1)


def refusals_handed_in():
    """A refusal comes out as it went in, whatever its number."""
    for number in [*range(13), 99, 2**31, 2**32 - 1]:
        say(f"finish refused {number}")


# ---- cases that see what the stored ones did not


def as_both(sizes, strides, base, start, end, table):
    """A range as an accumulator and as a number."""
    in_words(["reduce", "product"], sizes, strides, base, start, end, table)


def runs_as_both(values):
    """All values of one run, at each stride, as an accumulator and as a number."""
    runs(values)
    runs(values, "product")


def exchanged(values, place):
    return with_rate(with_rate(values, place, values[place + 1]), place + 1, values[place])


def small_rates():
    """Rates below what may be multiplied unsplit for long, in short runs and in long ones, alone and among others."""
    runs_as_both([rate(ONE, -20)] * 64)
    runs_as_both([rate(ONE, -10)] * 2048)
    runs_as_both(rates(110, 64, -20, -20))
    run(rates(111, 2048, -20, -10))
    for stride in [1, 2]:
        run(with_rate(rates(112, 1100), 700, rate(THREE_HALVES, -40)), stride)
    # The two doubles about 2^-14.5, whose square is 2^-29.
    for significand in [isqrt(2 * ONE * ONE), isqrt(2 * ONE * ONE) + 1]:
        for place in [0, 63, 69]:
            runs(with_rate(rates(113, 70), place, rate(significand, -15)))


def long_runs():
    """Runs about 256 and 512 values long, and a zero in 1,024 values: the first, and about the 256th and the 512th."""
    for length in [257, 511, 513, 521]:
        run(rates(length, length), 1)
        run(rates(length, length), 2)
    values = rates(114, 1024)
    runs_as_both(with_rate(values, 0, 0))
    for place in [255, 256, 511, 512, 1023]:
        run(with_rate(values, place, 0))


def one_small_value_again():
    """A value of 2^-20 that is visited over and over at stride 0, with others before and behind it."""
    others = rates(115, 9)
    for count in [100, 5000]:
        for value in [rate(ONE, -20), *rates(116, 1, -20, -20)]:
            as_both([count], [0], 0, 0, count, [value, *others])
            as_both([count], [0], 4, 0, count, with_rate(others, 4, value))
    as_both([100, 3], [0, 1], 2, 50, 250, [rate(ONE, -20 - place) for place in range(6)])


def five_axes(words=("reduce", "product")):
    """Five axes of which no two fuse, from element 17, which lies inside a run, and from the first."""
    for stride in STRIDES:
        base, table = laid(rates(117, 58), stride)
        for start, end in [(17, 32), (17, 18), (17, 25), (0, 32)]:
            in_words(words, [2] * 5, [stride * s for s in [1, 3, 7, 15, 31]], base, start, end, table)


def zero_in_the_second_run():
    """Five runs of two, with a zero in either place of the second, and ranges with it and without."""
    for stride in STRIDES:
        for place in [3, 4]:
            base, table = laid(with_rate(rates(118, 14), place, 0), stride)
            for start, end in [(0, 10), (1, 10), (2, 9), (3, 10), (4, 10), (0, 2)]:
                as_both([2, 5], [stride, 3 * stride], base, start, end, table)


def lane_of_a_value():
    """Twenty values, and the same with two neighbours exchanged: each is in the other's lane, and the last bits differ."""
    values = rates(361, 20)
    runs_as_both(values)
    for place in range(9):
        runs_as_both(exchanged(values, place))


def order_of_lanes():
    """A value to a lane, two neighbours exchanged, turned round, and the first put last: the last bits differ.

    The first two are left as they are: their product is the same both ways.
    """
    values = rates(1979, 8)
    for turned in [values, values[::-1], [*values[1:], values[0]], *(exchanged(values, place) for place in range(1, 7))]:
        runs_as_both(turned)


def cuts(values):
    """Ranges that visit the 24 values in their order, in runs of 24, 12, 8, 6, 4, 3 and 2, at each stride."""
    for length in [24, 12, 8, 6, 4, 3, 2]:
        # A value stands between two runs, so that they do not fuse.
        spread = []
        for first in range(0, 24, length):
            spread += [*values[first : first + length], *rates(first, 1)]
        for stride in STRIDES:
            base, table = laid(spread, stride)
            yield [length, 24 // length], [stride, (length + 1) * stride], base, 0, 24, table


def cut_into_pieces():
    """The same values in the same order, cut into runs: no two lengths have the same last bits."""
    for cut in cuts(rates(229, 24)):
        as_both(*cut)


def side_of_a_join():
    """A bad run among three and among seven: the first, the middle one, the last. What the left had is kept."""
    for count, bad in [(3, 0), (7, NAN)]:
        for row in [0, count // 2, count - 1]:
            values = with_rate(rates(119, 10 * count), 10 * row + 4, bad)
            for stride in STRIDES:
                base, table = laid(values, stride)
                as_both([9, count], [stride, 10 * stride], base, 0, 9 * count, table)
                as_both([9, count], [stride, 10 * stride], base, 3, 9 * count - 2, table)


def cases_that_see_what_the_stored_ones_did_not():
    """Small and long runs, values visited again, many axes; the lane, its order, the cut and the side of a join."""
    small_rates()
    long_runs()
    one_small_value_again()
    five_axes()
    zero_in_the_second_run()
    lane_of_a_value()
    order_of_lanes()
    cut_into_pieces()
    side_of_a_join()


def malformed_ranges(word):
    """Words of a line with a range and its values that are not of the format."""
    m = "3ff8000000000000"
    count = [*WRONG_UNSIGNED, "33", str(2**64 - 1)]
    axes = [count, WRONG_UNSIGNED, count, WRONG_SIGNED]
    range_ = [WRONG_SIGNED, WRONG_UNSIGNED, WRONG_UNSIGNED]
    values = [[*WRONG_UNSIGNED, "3", "4097"], WRONG_FLOATS, WRONG_FLOATS]
    good = ["1", "2", "1", "1", "0", "0", "2", "2", m, m]
    lines = spoiled(word, good, [*axes, *range_, *values])
    return [*lines, f"{word} 33{' 1' * 33} 33{' 1' * 33} 0 0 1 1 {m}"]


def malformed_lines():
    """Words of lines of `reduce`, `product` and `finish` that are not of the format."""
    m = "3ff8000000000000"
    lines = malformed_ranges("reduce") + malformed_ranges("product")
    lines.append("reduce 1 1 1 1 0 0 1 " + floats([unit(ONE)] * 4097))
    kinds = ["", "Acc", "ac", "accs", "number", "refused", m]
    lines += spoiled("finish", ["acc", m, "0", "0"], [kinds, WRONG_FLOATS, WRONG_SIGNED, WRONG_MARKS])
    refusals = [*WRONG_UNSIGNED, str(2**32), m]
    return lines + spoiled("finish", ["refused", "7"], [["", "Refused", "refuse", "acc", "7"], refusals])


GROUPS = [
    named_products,
    lengths,
    bounds_of_a_block,
    blocks_out_of_range,
    one_that_is_not_normal,
    several_that_are_not_normal,
    nan_in_a_block,
    bad_pieces,
    ranges_inside_runs,
    equal_strides,
    backwards,
    stride_0,
    ties_in_lanes,
    numbers,
    refused_reductions,
    the_listed_layouts,
    plan_of_nine_axes,
    most_values,
    named_finishes,
    ends_of_the_exponent,
    subnormal_ties,
    finish_marks,
    refusals_handed_in,
    cases_that_see_what_the_stored_ones_did_not,
]
