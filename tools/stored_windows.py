"""The stored cases of `windows`, a function for each group.

A window of w rates begins at each place of the slice but the last w - 1. Its lanes are counted from its own first rate.
"""

from case_lines import INFINITE, LEAST, MANY, MOST, ONE, SIGN, THREE_HALVES, TWO
from case_lines import WRONG_BYTES, WRONG_UNSIGNED
from case_lines import between_good_lines, floats, items, patterns_of_m, rate, reduce, say, spoiled, unit
from stored_figures import GREATEST, NANS
from stored_products import BOUNDS, HIGH, LOW, NAN, NOT_NORMAL
from stored_products import exchanged, rates, with_rate
from stored_ranges import BADS, ES, MS, held
from stored_search import positive, with_bad
from stored_steps import ALL
from stored_subnormal import MORE, SOME, lowered, subnormals, with_both

# Lanes and blocks that are just full, or by one not; a week, a month, ten weeks and a day, a year.
WIDTHS = [*range(1, 10), 15, 16, 17, 23, 24, 25, 30, 31, 32, 33, 63, 64, 65, 71, 72, 73, 127, 128, 129, 365]
# So many windows begin in each lane at least twice.
TWICE = 18
# A rate that a lane can hold alone, and of which a few together leave the doubles; the same upwards.
FAR, FAR_UP = rate(THREE_HALVES, -665), rate(THREE_HALVES, 665)


def call(values, w, buffers):
    ms, es, bads = buffers
    say(f"windows {floats(values)} {w} {floats(ms)} {items(es)} {items(bads)}")


def light(count):
    """Buffers of so many places, in few digits."""
    return [[0] * count, [7] * count, [9] * count]


def windows(values, w):
    """As many places as there are windows."""
    call(values, w, light(len(values) - w + 1))


def keep(seed, count):
    """Rates from 0.9 up to 1."""
    low, high = 0x3FECCCCCCCCCCCCD, unit(ONE)
    return [low + value * 0x9E3779B97F4A7C15 % 2**64 % (high - low) for value in rates(seed, count)]


# ---- what is written


def widths():
    """Each width, over rates of both signs whose products differ in their last bits if the lanes are others."""
    for w in WIDTHS:
        windows(rates(700 + w, w + TWICE - 1), w)


def many_windows():
    """Some hundred windows of one width, over keep rates and over rates of both signs; more than a thousand, with a far
    rate, a bad one and a subnormal now and then."""
    for w in [1, 7, 8, 30, 64]:
        windows(keep(701, 300), w)
    for w in [9, 30, 71]:
        windows(rates(702, 280), w)
    windows(keep(703, 600), 365)
    values = with_bad(with_bad(keep(742, 1300), range(40, 1300, 190), FAR), range(101, 1300, 331), NAN)
    for w in [7, 30]:
        windows(lowered(values, [270, 650, 1100]), w)


def fresh_reductions():
    """Each window of a few, and beside them the reductions of the same rates, each of which is one of the answers."""
    for w, length in [(7, 12), (8, 20), (30, 34), (65, 68)]:
        values = with_rate(rates(704, length), length - 2, 0)
        windows(values, w)
        for start in range(length - w + 1):
            reduce([w], [1], start, 0, w, values)


def one_window():
    """A window that is the whole slice, and beside it the reduction of it."""
    for w in [1, 2, 7, 8, 9, 30, 63, 64, 65, 129, 365]:
        values = rates(705 + w, w)
        windows(values, w)
        reduce([w], [1], 0, 0, w, values)


def two_windows():
    """A slice that is one longer than the window: what the second has is not that of the first moved on."""
    for w in [1, 2, 7, 8, 9, 30, 64, 65, 129]:
        windows(rates(706, w + 1), w)


def one_rate():
    """Windows of one rate: each as it is split, and no other's mark beside it."""
    every = [value + sign for value in patterns_of_m() for sign in [0, SIGN]]
    windows(every, 1)
    windows([value for other in NOT_NORMAL for value in [*rates(707, 1), other]], 1)
    windows(subnormals(708, 60), 1)


def other_orders():
    """The same rates with two neighbours exchanged, turned round and moved on by some places: other last bits."""
    values = rates(709, 29)
    for w in [8, 9, 20]:
        for turned in [values, values[::-1], *(values[by:] + values[:by] for by in [1, 4, 7, 8])]:
            windows(turned, w)
    for place in [0, 6, 7, 8, 15, 27]:
        windows(exchanged(values, place), 20)


def alike():
    """Slices in which all windows are the same, or every second and every eighth: ones, one rate again and again."""
    for w in [3, 8, 30, 65]:
        count = w + 9
        windows([unit(ONE)] * count, w)
        windows(rates(710, 1) * count, w)
        windows((rates(711, 2) * count)[:count], w)
        windows((rates(712, 8) * count)[:count], w)


def ties():
    """Products of exactly half and beside it, in a lane and of two lanes, in every window that holds both factors; and
    lanes that are rounded up to 2."""
    for odd in [1, 3]:
        for beside in [0, -1, 1]:
            pair = unit(ONE + odd), unit(THREE_HALVES + beside)
            for apart in [1, 8]:
                values = with_rate([unit(ONE)] * 34, 12, pair[0])
                windows(with_rate(values, 12 + apart, pair[1] + SIGN), 17)
    for pair in [(ONE + 1, TWO - 2), (TWO - 1, TWO - 1), (ONE + 1, ONE + 1)]:
        windows([value for s in pair * 2 for value in [unit(s)] * 8], 16)


# ---- exponents


def sorts_of_rates():
    """Rates of one sort everywhere: about 1, low and lower, large, at the bounds within which a block of 64 is multiplied
    unsplit, of all exponents, subnormal. In some a lane leaves the doubles after two rates, in others after many."""
    sorts = [
        lambda count: keep(713, count),
        lambda count: positive(714, count),
        *(lambda count, e=e: rates(715, count, e, e) for e in [-20, -121, -300, -1022, 20, 121, 300, 1023]),
        lambda count: rates(716, count, -1022, 1023),
        lambda count: (BOUNDS * count)[:count],
        lambda count: ([HIGH, SIGN + LOW] * count)[:count],
        lambda count: ([GREATEST, ONE, ONE, GREATEST] * count)[:count],
        lambda count: subnormals(717, count),
    ]
    for sort in sorts:
        for w in [7, 8, 30, 65]:
            windows(sort(w + 10), w)


def farthest_exponents():
    """The least double, the least normal one, the greatest powers of two and the greatest double, again and again."""
    for value in [1, SIGN + ONE, rate(ONE, 1023), GREATEST]:
        for w in [1, 8, 30, 480]:
            windows([value] * (w + 2), w)


def lanes_about_the_ends():
    """Rates of one exponent by which a whole lane comes just to the least normal number, to zero and past the greatest,
    or just not: of two rates, of some, of sixty. All of them so, and one that is a little lower or larger."""
    for w in [9, 24, 30, 64, 129, 480]:
        count = -(-w // 8)
        for e in [-1074 // count, -1022 // count, -1022 // count + 1, 1023 // count, 1024 // count + 1]:
            values = rates(743, w + 2, e, e)
            windows(values, w)
            if w < 100:
                windows(with_rate(values, w // 2, rate(THREE_HALVES, e + e // abs(e))), w)


def past_480():
    """Windows of about 480 rates and more, up to as many as a slice may have, near 1 and of all exponents."""
    for w in [479, 480, 481, 488, 513, 1025]:
        windows(keep(718, w + 9), w)
    for w in [481, 1000]:
        windows(rates(719, w + 3, -1022, 1023), w)
        windows(lowered(rates(720, w + 3), [2, 490]), w)
        windows(rates(721, w + 3, -3, -3), w)
    windows(rates(722, 2100), 2048)
    windows(keep(723, 4096), 4096)
    windows(rates(724, 4096, -1022, 1023), 4090)


def one_far():
    """Among keep rates a low one, a lower one, a large one and a subnormal: only some windows hold it. In the first
    place, at the ends of the first window and of the last, in the middle, in the last place."""
    for w in [7, 30, 65]:
        length = w + 20
        for index, place in enumerate([0, w - 1, w, length // 2, length - w, length - 1]):
            for far in [rate(ONE, -40), FAR, SIGN + FAR_UP, SOME][index % 2 :: 2]:
                windows(with_rate(keep(725, length), place, far), w)
    for far in [FAR, FAR_UP, MORE]:
        windows(with_rate(keep(726, 130), 66, far), 30)


def some_far():
    """Several of them: a few of one way in one lane, which leave the doubles together, of both ways, which come back
    within a lane, and everywhere in one half of the slice."""
    for w in [24, 40]:
        values = keep(727, w + 30)
        for places in [[20, 28], [20, 21], [20, 28, 36], [3, 11, 19, 27, 35, 43], range(30, w + 30)]:
            windows(with_bad(values, places, FAR), w)
            windows(with_bad(values, places, SIGN + FAR_UP), w)
        windows(with_bad(with_bad(values, [20, 36], FAR), [28, 44], FAR_UP), w)
        windows(with_bad(with_bad(values, range(16), FAR), range(40, 54), FAR_UP), w)
        windows(lowered(values, range(10, 26)), w)


# ---- bad rates


def one_bad():
    """One bad rate, each sort of it, and subnormals, which are none: in the first place, in the middle, in the last, and
    about the ends of the first window and of the last. The bytes were 255, or what the call gives."""
    for w in [1, 7, 8, 9, 30, 64]:
        length = 2 * w + 7
        places = sorted({0, w - 1, w, w + 3, length - w - 1, length - w, length - 1})
        for index, place in enumerate(places):
            values = with_rate(rates(728, length), place, NOT_NORMAL[(index + w) % len(NOT_NORMAL)])
            count = length - w + 1
            call(values, w, [*light(count)[:BADS], [255] * count if index % 2 else [index // 2 % 2] * count])
    for other in [*NOT_NORMAL, *NANS]:
        windows(with_rate(rates(729, 12), 6, other), 4)


def some_bad():
    """Two of them so far apart that some window holds both, that each window holds one, that one holds none; in each
    place that w divides; in all places but one; in all."""
    for w in [1, 5, 8, 30]:
        length = 3 * w + 4
        values = rates(730, length)
        for distance in sorted({1, max(w - 1, 1), w, w + 1, 2 * w}):
            windows(with_bad(with_bad(values, [2], NAN), [2 + distance], SIGN), w)
        windows(with_bad(values, range(0, length, w), INFINITE), w)
        windows(with_bad(values, range(w, length, w + 1)), w)
        windows([*[0] * (length // 2), values[0], *[0] * (length // 2)], w)
        windows([SIGN + INFINITE] * length, w)


def bad_and_far():
    """A bad rate beside a far one or a subnormal, in windows that hold either and both: m and e beside a mark have the
    product of all of them."""
    for w in [9, 30]:
        for bad in [0, SIGN + INFINITE, NAN]:
            for low, place in [(15, 23), (23, 15), (20, 21), (5, 34)]:
                windows(with_both(keep(731, w + 30), low, place, bad), w)
        windows(with_bad(rates(732, w + 30, -1022, 1023), [20]), w)
        windows(with_bad(subnormals(733, w + 30), [20, 33], NAN), w)


# ---- the buffers


def past_the_last():
    """Places past the last window keep what they hold: in each buffer alone, in two of them, and in all."""
    for w, length in [(3, 5), (8, 16), (12, 12)]:
        for more in [[1, 0, 0], [0, 1, 0], [0, 0, 1], [5, 0, 2], [0, 3, 1], [2, 2, 2], [0, 0, 0]]:
            count = length - w + 1
            call(rates(734, length), w, [held(count + extra)[which] for which, extra in enumerate(more)])


def anything_held():
    """Buffers that hold every sort of float, the ends of the exponents and of the bytes: a refused call shows all of
    them, with the one NaN for each pattern of one, and an accepted call those past its last window."""
    ms = [m + sign for m in patterns_of_m() for sign in [0, SIGN]]
    es = [LEAST, LEAST + 1, -1, 0, 1, MOST, 2**32, -(2**32)]
    bads = [0, 1, 2, 127, 128, 254, 255]
    for w in [2, 0, 3, 1]:
        call(rates(735, 2), w, [ms, es, bads])


# ---- refusals


def refusal_17():
    """No width; one past the length and more, with few values and with some; the largest numbers; some that would be
    right if 32 bits were kept, or 63, and some past 2^40, which 4 would refuse. The length itself is none of them."""
    for length in [1, 2, 8, 9, 64]:
        for w in sorted({0, length - 1, length, length + 1, length + 2}):
            call(rates(736, length), w, held(length))
    for w in [2**31, 2**32, 2**32 + 3, MANY - 1, MANY, MANY + 1, 2**63 - 1, 2**63, 2**63 + 3, ALL - 1, ALL]:
        call(rates(737, 5), w, held(5))


def no_values():
    """Any width over a slice without values, with buffers and without."""
    for w in [0, 1, 2, 2**32, MANY + 1, 2**63, ALL]:
        call([], w, held(0))
        call([], w, held(2))


def refusal_16():
    """Each buffer with no place, one place short and exactly full, beside others that are full or longer; two of them
    short, and all."""
    for w, length in [(1, 1), (1, 4), (3, 5), (8, 25), (30, 32)]:
        count, values = length - w + 1, rates(738, length)
        for extra in [0, 2]:
            for which in [MS, ES, BADS]:
                for places in sorted({0, count - 1, count}):
                    call(values, w, with_rate(held(count + extra), which, held(places)[which]))
        for full in [MS, ES, BADS]:
            call(values, w, with_rate(held(count - 1), full, held(count)[full]))
        call(values, w, held(count - 1))
        call(values, w, held(0))


def ranks():
    """17 before 16: each width that is refused, with one buffer short, with all of them, and with none."""
    for w in [0, 6, MANY + 1, ALL]:
        for which in [MS, ES, BADS]:
            call(rates(739, 5), w, with_rate(held(5), which, []))
        call(rates(739, 5), w, held(0))
        call(rates(739, 5), w, held(5))


# ---- how long a line may be, malformed lines


def longest_lines():
    """As many windows as a line has room for, of one rate each, and wide ones over as many rates as there may be; the
    same with a place too few. The longest numbers."""
    narrow, wide = keep(740, 3400), keep(741, 4096)
    windows(narrow, 1)
    windows(wide, 1200)
    call(wide, 1200, light(2896))
    call([NAN] * 9, ALL, [[NAN] * 9, [LEAST] * 9, [255] * 9])


def malformed():
    """Each word of a line in turn not of the format; a line without its width, and one with two; 4,097 items in each
    list."""
    m = "3ff8000000000000"
    good = ["2", m, m, "1", "2", m, m, "2", "-7", "7", "2", "255", "0"]
    count = ["x", "-1", "3", "4097"]
    value, e = ["", "1.5", m[:-1], m.upper()], ["", "+1", "-0", "01", str(MOST + 1)]
    lists = [count, value, value, WRONG_UNSIGNED, count, value, value, count, e, e, count, WRONG_BYTES, WRONG_BYTES]
    lines = spoiled("windows", good, lists)
    lines += [" ".join(["windows", *good[:3], *words, *good[4:]]) for words in [[], ["1", "1"], [m]]]
    lines.append(" ".join(["window", *good]))
    for place, word in [(0, m), (4, m), (7, "0"), (10, "1")]:
        lines.append(" ".join(["windows", *good[:place], "4097", *[word] * 4097, *good[place + 3 :]]))
    between_good_lines(lines)


GROUPS = [
    widths,
    many_windows,
    fresh_reductions,
    one_window,
    two_windows,
    one_rate,
    other_orders,
    alike,
    ties,
    sorts_of_rates,
    farthest_exponents,
    lanes_about_the_ends,
    past_480,
    one_far,
    some_far,
    one_bad,
    some_bad,
    bad_and_far,
    past_the_last,
    anything_held,
    refusal_17,
    no_values,
    refusal_16,
    ranks,
    longest_lines,
    malformed,
]
