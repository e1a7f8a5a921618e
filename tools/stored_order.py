"""The stored cases of axes of one |stride|, of which the forward ones come first, a function for each group. Every word
that has a layout is asked.

An axis is a pair of size and stride here, a layout a tuple of sizes, strides, base and table.
"""

from itertools import permutations
from math import prod

from case_lines import INFINITE, LEAST, MOST, ONE
from case_lines import apart, compile_, in_words, list_, marks, needed, rate, reduce
from stored_products import NAN, rates
from stored_ranges import ranges
from stored_search import with_bad
from stored_steps import GOOD, IGNORED, step

WORDS = ["reduce", "product", "ordered", "figure", "first"]


def orders(*axes):
    """The sizes and the strides of the axes, in every order in which they can be given."""
    return [apart(given) for given in dict.fromkeys(permutations(axes))]


def turned(*axes):
    """The same in the order in which they stand here, and from the last to the first."""
    return [apart(axes), apart(axes[::-1])]


def lowest_base(sizes, strides):
    """The base by which the lowest element lies at 0, if an i64 holds it."""
    return min(-sum((size - 1) * min(stride, 0) for size, stride in zip(sizes, strides)), MOST)


def over_rates(sizes, strides, seed, bad_places=(), bad=0):
    """The layout with a table of rates that it just fills, some of them bad."""
    base = lowest_base(sizes, strides)
    return sizes, strides, base, with_bad(rates(seed, needed(sizes, strides, base)), bad_places, bad)


def parts(total):
    """The whole, and all but its first and its last element."""
    return [(0, total), (1, total - 1)]


def compiled_and_listed(layout):
    sizes, strides, base, table = layout
    compile_(sizes, strides)
    for start, end in parts(prod(sizes)):
        list_(sizes, strides, base, start, end, len(table), marks(end - start))


def in_steps(layout):
    """Steps from the start, and from where the second run begins if the run is this axis or that: else it is 15."""
    sizes, strides, base, table = layout
    total = prod(sizes)
    range_ = sizes, strides, base, 0, total, table
    for count in [1, 2]:
        step(range_, 0, IGNORED, count)
    for next_ in sorted({size for size in sizes if 1 < size < total}):
        step(range_, next_, GOOD, 1)


def in_each_word(layout):
    """The calls over values: the whole and a part of it, in steps, and several ranges."""
    total = prod(layout[0])
    for start, end in parts(total):
        in_words(WORDS, *layout[:3], start, end, layout[3])
    in_steps(layout)
    ranges(layout, [*parts(total), (0, total // 2), (total // 2, total), (1, 2), (total - 2, total - 1)])


def asked(layout):
    """A layout as every word."""
    compiled_and_listed(layout)
    in_each_word(layout)


# ---- which axis comes first


def smallest():
    """The smallest calls that the source, handed the axes as they are given, answers otherwise: a list; one element;
    six rates, two of them 1.1, by the last bit; four with a zero; an ordered product that is infinite; the first bad
    rate; layouts that only the one or only the other refuses."""
    one, two, more = rate(ONE, 0), rate(ONE, 1), 0x3FF199999999999A
    list_([2, 2], [-1, 1], 1, 0, 4, 3, marks(4))
    reduce([2, 2], [-1, 1], 1, 1, 2, [one, one, two])
    in_words(["reduce", "product"], [2, 3], [-1, 1], 1, 0, 6, [one, more, more, one])
    reduce([2, 2], [-1, 1], 1, 0, 4, [0, one, two])
    reduce([2, 2], [-1, 1], 1, 0, 4, [rate(ONE, -2), two, rate(ONE, 1023)], "ordered")
    reduce([2, 2], [-1, 1], 1, 0, 4, [0, one, one], "first")
    compile_([2, 2], [-(2**62), 2**62])
    compile_([3, 3, 2], [-(2**60), -3 * 2**60, 3 * 2**60])


def named_layouts():
    """[2, 2] by [2, -2] and by [-2, 2] from base 2, which have one list; every range of it."""
    every = [(start, end) for start in range(4) for end in range(start + 1, 5)]
    for sizes, strides in orders((2, 2), (2, -2)):
        layout = over_rates(sizes, strides, 501)
        asked(layout)
        for start, end in every:
            list_(sizes, strides, 2, start, end, 5, marks(4))
        ranges(layout, every)


def two_axes():
    """One forward and one backward, in both orders: the forward one shorter, longer, and long enough for a block of 64,
    which only a run at stride 1 has; the backward one so long."""
    for axes in [
        [(2, 1), (3, -1)],
        [(3, 1), (2, -1)],
        [(70, 1), (2, -1)],
        [(2, 1), (70, -1)],
        [(3, 2), (4, -2)],
        [(5, 7), (2, -7)],
    ]:
        for sizes, strides in orders(*axes):
            asked(over_rates(sizes, strides, 502))


def three_axes():
    """Forward, backward, forward, and backward, forward, backward, in every order: of the two of the very same stride
    the one that is given first comes first. And three alike, which keep their order."""
    for axes in [[(4, 5), (2, -5), (3, 5)], [(4, -1), (2, 1), (3, -1)]]:
        for sizes, strides in orders(*axes):
            asked(over_rates(sizes, strides, 503))
    for sizes, strides in orders((4, -2), (2, -2), (3, -2)):
        compiled_and_listed(over_rates(sizes, strides, 503))


def behind_a_run():
    """A run forwards or backwards, and two axes of which one goes on where it ends. The forward one comes next: a run
    that goes backwards is met only where there is none."""
    for run in [(3, 1), (3, -1)]:
        axes = [(4, -3), run, (2, 3)]
        for sizes, strides in orders(*axes):
            compiled_and_listed(over_rates(sizes, strides, 504))
        for sizes, strides in turned(*axes):
            in_each_word(over_rates(sizes, strides, 504))
    for axes in [[(2, 1), (2, 2), (2, -2)], [(2, -1), (2, 2), (2, -2)], [(2, -1), (2, -2), (2, -2)]]:
        for sizes, strides in orders(*axes):
            compile_(sizes, strides)


def among_others():
    """Axes of stride 0, which come last, of size 1, which count for nothing, and of another |stride|: before the two,
    between them and behind them."""
    for other in [(2, 0), (1, 3), (1, -3), (1, LEAST), (2, 7), (2, -1)]:
        axes = [(2, -3), other, (3, 3)]
        for sizes, strides in orders(*axes):
            compiled_and_listed(over_rates(sizes, strides, 505))
        for sizes, strides in turned(*axes):
            in_each_word(over_rates(sizes, strides, 505))
    for others in [[(4, 0), (1, -3)], [(2, 2), (3, -2)]]:
        for sizes, strides in orders((2, -3), (3, 3), *others):
            compile_(sizes, strides)


def sixteen_axes():
    """Sixteen axes of one |stride|, of two and of four, with sizes that tell them apart; ranges at both ends and in the
    middle, as every word."""
    few = [2] * 12 + [3] * 4
    total = prod(few)
    pairs = [(0, 9), (total // 2 - 4, total // 2 + 5), (total - 9, total)]
    for strides in [
        [-1, 1] * 8,
        [1, -1, -1] * 5 + [1],
        [-1, 2, 1, -2] * 4,
        [-2, -1, 2, 1, 0, -1, -2, 1] * 2,
        [3, -3, -4, 4, -1, 1, 2, -2] * 2,
    ]:
        compile_([2, 3, 4, 5] * 4, strides)
        compile_([5, 4, 3, 2] * 4, strides)
        sizes, strides, base, table = layout = over_rates(few, strides, 506)
        for start, end in pairs:
            list_(sizes, strides, base, start, end, len(table), marks(9))
            in_words(WORDS, sizes, strides, base, start, end, table)
            step((sizes, strides, base, start, end, table), start, IGNORED, 2)
        ranges(layout, pairs)


# ---- what overflows


def limits():
    """A forward axis whose stride × size is 2^63 is refused where another follows, so where a backward one is given
    before it too. A backward one that reaches to -2^63 is not. Beside each what just fits, and axes of size 1."""
    top, below = 2**62, 2**62 - 1
    for axes in [
        [(2, top), (2, -top)],
        [(2, below), (2, -below)],
        [(1, top), (2, -top)],
        [(2, top), (1, -top)],
        [(2, -top), (2, -top)],
        [(2, top), (2, -top), (2, 0)],
        [(1, top), (2, -top), (2, 0)],
        [(4, 2**61), (2, -(2**61))],
        [(2, 2**61), (4, -(2**61))],
        [(2**20, 2**43), (2, -(2**43))],
        [(2, 2**43), (2**20, -(2**43))],
        [(2, MOST), (2, -MOST)],
    ]:
        for sizes, strides in orders(*axes):
            compile_(sizes, strides)
            list_(sizes, strides, lowest_base(sizes, strides), 0, 2, 2**63, marks(2))


def limits_of_a_fused_axis():
    """A backward axis that would meet the run and then reach too far, if no forward one stood between them; a forward
    one that meets the run and then does not fit before another; and ones that do."""
    for unit, length, size in [(2**60, 3, 3), (2**61, 2, 2), (2**60, 2, 2)]:
        for run in [(length, unit), (length, -unit)]:
            for sizes, strides in orders(run, (size, -length * unit), (2, length * unit)):
                compile_(sizes, strides)


def least_stride():
    """-2^63, which no forward stride is equal to, among axes both ways: refused at size 2, of no account at size 1, nor
    where there are no elements."""
    for axes in [
        [(2, LEAST), (2, 1), (2, -1)],
        [(1, LEAST), (2, 1), (3, -1)],
        [(1, LEAST), (2, MOST), (1, -MOST)],
        [(1, LEAST), (1, LEAST), (2, -(2**62))],
        [(2, LEAST), (2, LEAST), (0, 1)],
    ]:
        for sizes, strides in orders(*axes):
            compile_(sizes, strides)
            list_(sizes, strides, 2, 0, 2, 5, marks(2))


def refused_in_each_word():
    """Refused by 3 in both orders, and by 7 where the layout compiles, as every word."""
    for axes in [[(2, 2**62), (2, -(2**62))], [(2, 2**61), (4, -(2**61))], [(2, LEAST), (1, MOST)]]:
        for sizes, strides in orders(*axes):
            in_each_word((sizes, strides, 1, rates(507, 3)))


def sizes_of_0():
    """The total is multiplied in the order in which the sizes are given: an overflow before the size of 0 is refused by
    3, one behind it is not, whichever axes go forwards."""
    for sizes in permutations([2**63, 2, 0]):
        for strides in [[-1, 1, 1], [1, -1, 1], [1, 1, -1], [-1, -1, 1], [-1, 1, -1], [1, -1, -1]]:
            compile_(sizes, strides)
    table = rates(508, 3)
    for sizes, strides in [([2**63, 2, 0], [-1, -1, 1]), ([2**63, 0, 2], [1, -1, 1]), ([0, 2, 3], [-1, 1, -1])]:
        for start, end in [(0, 0), (0, 1)]:
            list_(sizes, strides, 2, start, end, 3, marks(1))
            in_words(WORDS, sizes, strides, 2, start, end, table)
            step((sizes, strides, 2, start, end, table), 0, IGNORED, 1)
        for pairs in [[], [(0, 0)], [(0, 1)]]:
            ranges((sizes, strides, 2, table), pairs)


# ---- what the order decides about values


def bad_rates():
    """Two bad rates, one on the way of the forward axis and one on that of the backward one, and one alone: which is
    met first, and what m and e come before it."""
    for axes, places in [
        ([(2, 2), (2, -2)], [[0, 4], [4]]),
        ([(3, 1), (2, -1)], [[0, 3], [2]]),
        ([(2, 1), (3, -1)], [[0, 3], [1]]),
        ([(2, 5), (3, -5), (4, 5)], [[0, 30]]),
    ]:
        for sizes, strides in orders(*axes):
            for some, bad in zip(places, [0, NAN]):
                in_each_word(over_rates(sizes, strides, 509, some, bad))


def last_bits():
    """Rates of which none is bad, whose product has other last bits where a backward axis is taken before a forward
    one, in lanes and in order."""
    for seed, axes in [
        (511, [(3, 1), (2, -1)]),
        (511, [(2, 1), (3, -1)]),
        (511, [(9, 1), (4, -1)]),
        (512, [(3, 2), (4, -2), (2, 2)]),
        (513, [(4, -1), (2, 1), (3, -1)]),
    ]:
        for sizes, strides in orders(*axes):
            sizes, strides, base, table = over_rates(sizes, strides, seed)
            in_words(WORDS[:4], sizes, strides, base, 0, prod(sizes), table)


def ends_of_the_doubles():
    """Huge and tiny rates: in one order the product leaves the doubles on its way, in the other it does not."""
    huge, tiny = rate(ONE, 900), rate(ONE, -900)
    for table in [[huge, huge, tiny], [tiny, huge, huge], [huge, ONE, tiny], [INFINITE - 1, huge, 1]]:
        for sizes, strides in orders((2, 1), (2, -1)):
            for start, end in parts(4):
                in_words(WORDS, sizes, strides, 1, start, end, table)


GROUPS = [
    smallest,
    named_layouts,
    two_axes,
    three_axes,
    behind_a_run,
    among_others,
    sixteen_axes,
    limits,
    limits_of_a_fused_axis,
    least_stride,
    refused_in_each_word,
    sizes_of_0,
    bad_rates,
    last_bits,
    ends_of_the_doubles,
]
