#!/usr/bin/env python3
"""Prints the stored cases of the program `replay`, a line for each call.

The format has no comments, so this file says what each group is for: here layouts, joins and malformed lines,
in stored_products.py reductions, products and finishes, in stored_figures.py ordered products and figures,
in stored_search.py first bad rates, in stored_jobs.py layouts sent as words, in stored_steps.py reductions in steps,
in stored_ranges.py several ranges in one call, in stored_order.py axes of one |stride|, forwards and backwards,
in stored_subnormal.py subnormal rates, in stored_windows.py each w rates in a row.
The answers are the oracle's: crates/replay/stdout.
"""

import math
import sys

import stored_figures
import stored_jobs
import stored_order
import stored_products
import stored_ranges
import stored_search
import stored_steps
import stored_subnormal
import stored_windows
from case_lines import BAD, GAPS, INFINITE, LEAST, LIMIT, MANY, MOST, ONE, OUT, PLAN, SIGN, THREE_HALVES, TWO
from case_lines import WRONG_FLOATS, WRONG_MARKS, WRONG_SIGNED
from case_lines import between_good_lines, compile_, join, list_, marks, needed, patterns_of_m, spoiled, unit


def times(s, t, e=0, f=0, bad=(0, 0)):
    """Joins two accumulators that are given by their |m| × 2^52, the sign with it."""
    join((unit(s), e, bad[0]), (unit(t), f, bad[1]))


def both(sizes, strides, base, start, end, length, places):
    """The compile call and the list call of one layout."""
    compile_(sizes, strides)
    list_(sizes, strides, base, start, end, length, marks(places))


def named_layouts():
    """The layouts that the rules name."""
    both([2, 3], [3, 1], 0, 0, 6, 6, 6)
    both([2, 3], [1, -2], 4, 0, 6, 6, 6)
    list_([2, 3], [1, -2], 3, 0, 6, 6, marks(6))
    both([2, 2], [2, -2], 2, 0, 4, 5, 4)
    both([3, 2], [0, 1], 0, 0, 6, 2, 6)
    compile_([2**63, 2, 0], [1, 1, 1])
    compile_([0, 2**63, 2], [1, 1, 1])
    compile_([2], [LEAST])
    compile_([1], [LEAST])
    compile_([2, 2], [2**62, 0])
    compile_([2**63 + 1], [0])
    compile_([MANY], [0])
    compile_([MANY + 1], [0])
    compile_([], [])
    list_([], [], 0, 0, 1, 1, marks(1))
    list_([], [], 0, 0, 1, 0, marks(1))
    list_([], [], 5, 0, 1, 6, marks(2))
    list_([MANY], [0], 7, MANY - 3, MANY, 8, marks(3))


def refusal_1():
    """Sizes and strides that differ in number, before every other refusal."""
    compile_([2, 3], [1, 2])
    compile_([2, 3], [1])
    compile_([2], [1, 2])
    compile_([], [1])
    compile_([2], [])
    compile_([2] * 17, [1] * 16)
    compile_([2] * 16, [1] * 17)
    compile_([2**63, 2], [1])
    compile_([MANY + 1], [])
    list_([2, 3], [1], 0, 0, 1, 6, marks(6))
    list_([2], [1, 2], 9, 5, 5, 0, [])


def refusal_2():
    """Seventeen axes and more, of which those of size 1 count."""
    powers = [2**i for i in range(32)]
    for count in [8, 9, 15, 16, 17]:
        compile_([2] * count, powers[:count])
        compile_([1] * count, [1] * count)
        compile_([0] * count, [1] * count)
        compile_([2**63] * count, [1] * count)
        list_([2] * count, powers[:count], 0, 250, 256, 2**count, marks(6))
        list_([2] * count, powers[:count], 0, 6, 6, 0, [])
    compile_([1] * 32, [0] * 32)
    compile_([2] * 18, powers[:18])
    compile_([2] * 32, powers)
    # All but one have size 1: still too many, wherever the other stands.
    for place in [0, 8, 16]:
        sizes = [1] * 17
        sizes[place] = 5
        compile_(sizes, [1] * 17)
        list_(sizes, [1] * 17, 0, 0, 5, 5, marks(5))


def sixteen_axes():
    """Nine axes: house, level, block, row, seat, day, hour, channel and class; sixteen; sixteen of which nine have size 1.
    The ranges carry into each place of the cursor: the ninth digit, and the last."""
    side_by_side = [768, 384, 192, 64, 16, 8, 4, 2, 1]
    steps = list(range(3, 19))
    for sizes, strides, base in [
        (PLAN, side_by_side, 0),
        (PLAN, GAPS, 0),
        (PLAN, [-stride for stride in GAPS], 3005),
        ([2] * 9, steps[:9], 0),
        ([2] * 16, steps, 0),
        ([2] * 16, [-step for step in steps], 168),
        ([2, 1] * 7 + [1, 1], steps, 0),
        ([1, 3] * 7 + [1, 1], [5] * 16, 0),
    ]:
        total = math.prod(sizes)
        length = needed(sizes, strides, base)
        compile_(sizes, strides)
        for carried in [1, 2, 8, 128, 256, 512, 768, 1024, 2**14, 2**15]:
            if carried < total:
                list_(sizes, strides, base, max(carried - 3, 0), min(carried + 4, total), length, marks(7))
        list_(sizes, strides, base, max(total - 6, 0), total, length, marks(6))
        list_(sizes, strides, base, 0, total, length - 1, marks(1))


def refusal_3():
    """Checks of rules L1, L3 and L4 that overflow, each beside one that fits."""
    # Rule L1: the product of the sizes, left to right.
    compile_([2**32, 2**32], [0, 0])
    compile_([2**32, 2**32 - 1], [0, 0])
    compile_([2**64 - 1], [0])
    compile_([2**64 - 1, 1], [0, 5])
    compile_([2**63, 1, 2, 0], [1, 1, 1, 1])
    compile_([2**63, 0, 2], [1, 1, 1])
    compile_([3, 2**63 - 1], [0, 0])
    # Rule L3: size - 1, the product, and its sign.
    compile_([2**63], [0])
    compile_([2**63 + 1], [0])
    compile_([2], [MOST])
    compile_([2], [-MOST])
    compile_([2], [LEAST])
    compile_([3], [2**62 - 1])
    compile_([3], [2**62])
    compile_([3], [-(2**62) + 1])
    compile_([3], [-(2**62)])
    compile_([2, 2], [1, LEAST])
    compile_([2, 1], [1, LEAST])
    compile_([2**40, 2], [2**23, 0])
    compile_([2**40], [2**23])
    compile_([2**40], [2**22])
    compile_([2**40], [-(2**23)])
    # Rule L4: step × size where another axis follows.
    compile_([2], [2**62])
    compile_([2, 2], [2**62, 0])
    compile_([2, 2], [2**62, 2**62])
    compile_([2, 2], [2**61, 2**62])
    compile_([2, 2], [-(2**62), 0])
    compile_([2, 2], [2**62 - 1, 0])
    compile_([2, 2], [MOST, 0])
    compile_([2, 2], [-(2**61), -(2**62)])
    compile_([2, 2], [3, MOST])
    # Fusing alone can overflow.
    compile_([2, 2], [3 * 2**60, 3 * 2**61])
    compile_([2, 2], [2**60, 2**61])
    compile_([2, 2], [-3 * 2**60, -3 * 2**61])
    compile_([4, 2], [2**60, 2**62])
    compile_([4, 3], [2**60, 2**62])
    compile_([2, 2, 2], [2**60, 2**61, 2**62])
    # A fused axis whose step × size does not fit, with another axis behind it.
    compile_([2, 2, 2], [2**61, 2**62, 0])
    compile_([2, 2, 2], [2**60, 2**61, 0])
    compile_([2, 2, 2], [-(2**61), -(2**62), 0])
    list_([2, 2], [2**62, 0], 0, 0, 1, 2**64 - 1, marks(2))
    list_([2], [2**62], 0, 0, 2, 2**62 + 1, marks(2))


def refusal_4():
    """Totals above 2^40, and the checks of rules L3 and L4 that come before."""
    compile_([2**20, 2**20], [1, 2**20])
    compile_([2**20, 2**20], [2**20, 1])
    compile_([2**20 + 1, 2**20], [1, 2**21])
    compile_([2**20, 2**20, 2], [0, 0, 0])
    compile_([2**20, 2**20, 1], [0, 0, 0])
    compile_([MANY - 1], [1])
    compile_([MANY, 1], [1, LEAST])
    compile_([MANY + 1], [1])
    compile_([2**63], [1])
    compile_([2**62], [1])
    compile_([2**63 - 1], [1])
    compile_([2**32, 2**32 - 1], [0, 0])
    compile_([2**32, 2**32 - 1], [0, 1])
    compile_([2**41], [2**22])
    compile_([2**41], [2**23])
    compile_([2**41, 2], [2**22, 0])
    compile_([2**64 - 1], [0])
    list_([MANY], [0], 0, 0, 1, 1, marks(1))
    list_([MANY + 1], [0], 0, 0, 1, 1, marks(1))
    list_([MANY + 1], [0], 0, 1, 1, 0, [])
    list_([2**20, 2**20], [1, 2**20], 0, 2**20 - 1, 2**20 + 2, MANY, marks(3))


def refusal_5():
    """Empty and reversed ranges."""
    list_([4], [1], 0, 2, 3, 4, marks(2))
    list_([4], [1], 0, 2, 2, 4, marks(2))
    list_([4], [1], 0, 3, 2, 4, marks(2))
    list_([4], [1], 0, 0, 0, 4, [])
    list_([4], [1], 0, 9, 9, 4, marks(1))
    list_([4], [1], -1, 4, 4, 0, [])
    list_([4], [1], 0, 2**64 - 1, 2**64 - 1, 4, [])
    list_([4], [1], 0, 2**64 - 1, 0, 4, [])
    list_([0], [1], 0, 0, 0, 0, [])
    list_([3, 0], [1, 1], 0, 1, 1, 9, marks(2))


def refusal_6():
    """Ranges that end above the total."""
    list_([4], [1], 0, 3, 4, 4, marks(1))
    list_([4], [1], 0, 3, 5, 4, marks(2))
    list_([4], [1], 0, 4, 5, 4, marks(1))
    list_([4], [1], 0, 0, 2**64 - 1, 4, marks(4))
    list_([4], [1], -1, 0, 5, 0, [])
    list_([0], [1], 0, 0, 1, 9, marks(1))
    list_([2, 0, 3], [1, 2, 3], 0, 0, 1, 9, marks(1))
    list_([], [], 0, 0, 2, 9, marks(2))
    list_([1, 1], [5, 5], 0, 0, 2, 9, marks(2))
    list_([MANY], [0], 0, MANY - 1, MANY + 1, 1, marks(2))


def refusal_7():
    """Elements outside the values, visited or not; lengths and bases that fit exactly and by one not."""
    for base, length in [(0, 4), (0, 3), (1, 5), (1, 4), (-1, 4), (0, 0), (0, 2**64 - 1)]:
        list_([4], [1], base, 0, 4, length, marks(4))
    for base, length in [(3, 4), (2, 4), (3, 3), (4, 5), (LEAST, 4), (MOST, 4)]:
        list_([4], [-1], base, 0, 4, length, marks(4))
    # Only the first element is visited, and the last lies outside.
    list_([4], [1], 0, 0, 1, 4, marks(1))
    list_([4], [1], 0, 0, 1, 3, marks(1))
    list_([4], [-1], 3, 0, 1, 4, marks(1))
    list_([4], [-1], 2, 0, 1, 4, marks(1))
    list_([2, 3], [1, -2], 4, 0, 1, 5, marks(1))
    list_([2, 3], [1, -2], 4, 0, 1, 6, marks(1))
    list_([2, 3], [-1, 2], 1, 0, 6, 6, marks(6))
    list_([2, 3], [-1, 2], 0, 0, 6, 6, marks(6))
    list_([2, 3], [-1, 2], 1, 0, 6, 5, marks(6))
    # Stride 0: the base alone counts.
    list_([5], [0], 3, 0, 5, 4, marks(5))
    list_([5], [0], 3, 0, 5, 3, marks(5))
    list_([5], [0], -1, 0, 5, 3, marks(5))
    # Bases near 2^63, with lengths on both sides of it.
    list_([2], [1], MOST - 1, 0, 2, 2**63, marks(2))
    list_([2], [1], MOST - 1, 0, 2, 2**63 - 1, marks(2))
    list_([2], [1], MOST, 0, 2, 2**64 - 1, marks(2))
    list_([2], [-1], MOST, 0, 2, 2**63, marks(2))
    list_([2], [-1], MOST, 0, 2, 2**63 - 1, marks(2))
    list_([1], [1], MOST, 0, 1, 2**63, marks(1))
    list_([], [], MOST, 0, 1, 2**64 - 1, marks(1))
    list_([], [], MOST, 0, 1, 2**63 - 1, marks(1))
    list_([], [], LEAST, 0, 1, 2**64 - 1, marks(1))
    list_([2], [MOST], 0, 0, 2, 2**63, marks(2))
    list_([2], [MOST], 0, 0, 2, 2**63 - 1, marks(2))
    list_([2], [MOST], 1, 0, 2, 2**64 - 1, marks(2))
    list_([2], [-MOST], MOST, 0, 2, 2**63, marks(2))
    list_([2], [-MOST], MOST - 1, 0, 2, 2**63, marks(2))
    list_([2, 2], [MOST, -MOST], MOST, 0, 4, 2**63, marks(4))
    # Sums over the axes that pass 64 bits, one way and both ways.
    tall = [2**61] * 8
    list_([2] * 8, tall, 0, 0, 2, 2**64 - 1, marks(2))
    list_([2] * 8, [-s for s in tall], MOST, 0, 2, 2**64 - 1, marks(2))
    list_([2] * 4, [2**61, 2**61, 2**61, 2**61], 0, 0, 2, 2**64 - 1, marks(2))
    list_([2] * 3, [2**61, 2**61, 2**61], 0, 0, 8, 2**63, marks(8))
    list_([2] * 4, [2**61, -(2**61), 2**61, -(2**61)], 2**62, 0, 16, 2**63, marks(16))
    list_([2] * 4, [2**61, -(2**61), 2**61, -(2**61)], 2**62 - 1, 0, 16, 2**63, marks(16))
    list_([2] * 4, [2**61, -(2**61), 2**61, -(2**61)], 2**62, 0, 16, 2**63 - 1, marks(16))


def refusal_8():
    """Buffers exactly full, one short, longer and empty; the refusals that come before."""
    for places in [4, 3, 5, 0, 1, 9]:
        list_([4], [1], 0, 0, 4, 4, marks(places))
    list_([4], [1], 0, 1, 3, 4, marks(2))
    list_([4], [1], 0, 1, 3, 4, marks(1))
    list_([4], [1], 0, 3, 4, 4, [])
    list_([4], [1], 0, 2, 2, 4, [])
    list_([4], [1], 0, 0, 5, 4, [])
    list_([4], [1], 0, 0, 4, 3, [])
    list_([MANY], [0], 0, 0, MANY, 1, marks(3))
    list_([4], [1], 0, 0, 4, 4, [LEAST, MOST, 0, -1, 7, LEAST])
    list_([4], [1], 0, 0, 4, 3, [LEAST, MOST, 0, -1, 7])
    list_([64, 64], [64, 1], 0, 0, 4096, 4096, marks(4096))
    list_([64, 64], [64, 1], 0, 0, 4096, 4096, marks(4095))
    list_([64, 65], [65, 1], 0, 64, 4160, 4160, marks(4096))


def order_of_axes():
    """Equal strides in both orders, zero strides last, negative ones by their size, behind forward ones of that size."""
    both([2, 3], [1, 1], 0, 0, 6, 4, 6)
    both([3, 2], [1, 1], 0, 0, 6, 4, 6)
    both([2, 3], [1, -1], 2, 0, 6, 4, 6)
    both([3, 2], [-1, 1], 2, 0, 6, 4, 6)
    both([2, 2], [-2, 2], 2, 0, 4, 5, 4)
    both([3, 2, 4], [5, 5, 5], 0, 0, 24, 31, 24)
    both([4, 2, 3], [5, -5, 5], 5, 0, 24, 31, 24)
    both([2, 3], [0, 0], 0, 0, 6, 1, 6)
    both([3, 2], [0, 0], 4, 0, 6, 5, 6)
    both([2, 3, 2], [0, 1, 0], 0, 0, 12, 3, 12)
    both([2, 3, 2], [0, -1, 0], 2, 0, 12, 3, 12)
    both([2, 3], [0, MOST // 2], 0, 0, 6, 2**64 - 1, 6)
    both([3, 2, 2], [7, -3, 100], 3, 0, 12, 200, 12)
    both([2, 2, 2], [100, 1, -10], 10, 0, 8, 112, 8)
    compile_([2, 2, 2, 2, 2, 2, 2, 2], [1, 1, 1, 1, 1, 1, 1, 1])
    compile_([2, 3, 4, 5, 6, 7, 8, 9], [8, 7, 6, 5, 4, 3, 2, 1])
    compile_([2, 3, 4, 5, 6, 7, 8, 9], [0, 7, 0, -7, 7, 0, -7, 7])
    compile_([2, 2], [LEAST + 1, 1])
    compile_([2, 2], [1, LEAST + 1])


def fusing():
    """Axes that meet, that nearly meet, and that meet after others did."""
    both([2, 3, 4], [12, 4, 1], 0, 0, 24, 24, 24)
    both([2, 3, 4], [1, 2, 6], 0, 5, 20, 24, 15)
    both([2, 3, 4], [4, 8, 1], 0, 0, 24, 24, 24)
    both([2, 3, 4], [13, 4, 1], 0, 0, 24, 25, 24)
    both([2, 3, 4], [12, 5, 1], 0, 0, 24, 26, 24)
    both([2, 3, 4], [24, 8, 2], 0, 0, 24, 47, 24)
    both([2, 3], [-3, -1], 5, 0, 6, 6, 6)
    both([2, 3], [-3, 1], 3, 0, 6, 6, 6)
    both([2, 3], [3, -1], 2, 0, 6, 6, 6)
    both([2, 2, 2], [1, 2, 2], 0, 0, 8, 6, 8)
    both([2, 2, 2], [2, 1, 2], 0, 0, 8, 6, 8)
    both([2, 2, 2, 2], [1, 2, 8, 16], 0, 0, 16, 28, 16)
    both([2] * 8, [1, 2, 4, 8, 16, 32, 64, 128], 0, 100, 130, 256, 30)
    both([2] * 8, [1, 2, 4, 9, 18, 36, 72, 200], 0, 100, 130, 400, 30)
    both([2] * 8, [1, 3, 9, 27, 81, 243, 729, 2187], 0, 0, 256, 3281, 256)
    compile_([2**20, 2**20], [3, 3 * 2**20])
    compile_([2, 2, 2, 2], [2**59, 2**60, 2**61, 2**62])
    compile_([2, 2], [-(2**61), -(2**62)])


def sizes_0_and_1():
    """Sizes 0 and 1 in every place."""
    for place in range(4):
        for size in [0, 1]:
            sizes = [2, 3, 4]
            strides = [12, 4, 1]
            sizes.insert(place, size)
            strides.insert(place, 5)
            both(sizes, strides, 0, 3, 9, 24, 7)
    for place in range(3):
        sizes = [1, 1]
        sizes.insert(place, 4)
        both(sizes, [7, 7, 7], 1, 0, 4, 23, 4)
    compile_([1], [0])
    compile_([1, 1, 1], [LEAST, MOST, 0])
    list_([1, 1, 1], [LEAST, MOST, 0], 3, 0, 1, 4, marks(1))
    compile_([0], [LEAST])
    compile_([0, 2**64 - 1], [LEAST, LEAST])
    compile_([2**64 - 1, 0], [LEAST, LEAST])
    compile_([2**64 - 1, 2, 0], [LEAST, LEAST, 1])
    compile_([0, 2**64 - 1, 2], [LEAST, LEAST, 1])
    compile_([1, 0], [3, 3])
    compile_([0, 0], [0, 0])


def ranges():
    """Ranges inside a run, over its end, over several runs, and single elements."""
    for start, end in [(0, 1), (0, 4), (1, 3), (3, 5), (4, 8), (2, 11), (11, 12), (0, 12), (7, 8), (8, 12)]:
        list_([4, 3], [1, 10], 0, start, end, 24, marks(end - start + 1))
        list_([4, 3], [-1, -10], 23, start, end, 24, marks(end - start))
    for start, end in [(0, 24), (5, 19), (6, 7), (23, 24), (12, 13), (0, 7)]:
        list_([2, 3, 4], [100, 10, 1], 0, start, end, 124, marks(end - start))
        list_([2, 3, 4], [100, 0, -1], 3, start, end, 104, marks(end - start))


def products():
    """Joined products: exact, with and without a carry, and rounded at 2. No two m have the product 2 exactly."""
    times(ONE, ONE)
    times(THREE_HALVES, THREE_HALVES)
    times(ONE, TWO - 1, 7, -9)
    times(TWO - 1, ONE, -7, 9)
    times(TWO - 1, TWO - 1, 1000, 2000)
    times(ONE + 1, ONE + 1)
    times(5 * 2**50, 5 * 2**50)
    # Rounded up to 2, from just below it and from a tie.
    times(ONE + 1, TWO - 2)
    times((2**27 - 1) * 2**26, (2**27 + 1) * 2**25)
    # Rounded down to 2, from just above it and from a tie.
    times(ONE + 1, TWO - 1)
    times(THREE_HALVES, (2**53 + 1) // 3 * 2)
    # The last that stays below 2, and the first that is above.
    times(ONE + 1, TWO - 3)
    times(ONE + 2, TWO - 2)


def ties():
    """Remainders of exactly half, to the even quotient below and above, and their neighbours."""
    for odd in [1, 3, 5, 7]:
        for beside in [0, -1, 1]:
            times(ONE + odd, THREE_HALVES + beside)
            times(THREE_HALVES + beside, ONE + odd)
    for twice in [2, 6, 10, 14]:
        for beside in [0, -1, 1]:
            times(THREE_HALVES + twice, THREE_HALVES + beside)


def signs():
    """All four pairs of signs, where a product is exact, carried, a tie and rounded to 2."""
    for s, t in [(ONE, ONE), (THREE_HALVES, THREE_HALVES), (ONE + 1, THREE_HALVES), (ONE + 1, TWO - 2)]:
        for left, right in [(s, -t), (-s, t), (-s, -t)]:
            times(left, right, 3, -5)


def bad_marks():
    """A bad mark keeps the left m and e, whatever the exponents would be together."""
    for bad in BAD:
        times(THREE_HALVES, -(ONE + 1), 11, -22, bad)
        times(-(TWO - 1), TWO - 1, LIMIT, LIMIT, bad)
        times(ONE, THREE_HALVES, -LIMIT, -LIMIT, bad)


def refusal_9():
    """Each bound of a given m and a given e, and its neighbour, on the left and on the right, bad or not."""
    good = (unit(THREE_HALVES), 5, 0)
    one, two = unit(ONE), unit(ONE) + 2**52
    for m in patterns_of_m():
        for sign in [0, SIGN]:
            join((m + sign, 0, 0), good)
            join(good, (m + sign, 0, 0))
    for size in [LIMIT - 1, LIMIT, LIMIT + 1, MOST]:
        for e in [size, -size]:
            join((one, e, 0), (one, 0, 0))
            join((one, 0, 0), (one, e, 0))
    wrong_e = [(one, LEAST), (one, LIMIT + 1), (one, -LIMIT - 1)]
    wrong_m = [(two, 0), (one - 1, 0), (INFINITE + 2**51, 0), (INFINITE, 0)]
    for left, right in [(0, 0), *BAD]:
        for wrong in [*wrong_e, *wrong_m]:
            join((*wrong, left), (one, 0, right))
            join((one, 0, left), (*wrong, right))
    # Both, and before 10.
    join((two, LEAST, 0), (0, MOST, 0))
    join((one, LIMIT + 1, 0), (one, LIMIT, 0))
    join((two, LIMIT, 0), (one, LIMIT, 0))


def refusal_10():
    """Each bound of the joined e and its neighbours, with a carry and without."""
    for m in [ONE, THREE_HALVES]:
        for total in [LIMIT - 2, LIMIT - 1, LIMIT, LIMIT + 1, LIMIT + 2]:
            for first in [LIMIT, LIMIT // 2 + 3]:
                times(m, m, first, total - first)
                times(m, m, -first, first - total)
    times(ONE, ONE, LIMIT, LIMIT)
    times(ONE, ONE, -LIMIT, -LIMIT)
    times(ONE, ONE, LIMIT, -LIMIT)
    # A carry that rounding alone brings.
    times(ONE + 1, TWO - 2, LIMIT, -1)
    times(ONE + 1, TWO - 2, LIMIT, 0)
    times(ONE + 1, TWO - 3, LIMIT, 0)
    times(ONE + 1, TWO - 2, -LIMIT, -1)
    times(ONE + 1, TWO - 2, -LIMIT, -2)


def malformed_joins():
    """Words of a join line that are not of the format, each in a line that is otherwise good."""
    m = "3ff8000000000000"
    return spoiled("join", [m, "0", "0", m, "-7", "1"], [WRONG_FLOATS, WRONG_SIGNED, WRONG_MARKS] * 2)


def malformed():
    """Lines that are not of the format, each between two that are."""
    bad = [
        "",
        " ",
        "compile",
        "compile ",
        "compil 1 2 1 1",
        "Compile 1 2 1 1",
        "compiled 1 2 1 1",
        " compile 1 2 1 1",
        "compile 1 2 1 1 ",
        "compile  1 2 1 1",
        "compile 1  2 1 1",
        "compile\t1 2 1 1",
        "compile 1 2 1 1\r",
        "compile 1 2 1 1 1",
        "compile 1 2 1",
        "compile 2 2 1 1",
        "compile 1 2 2 1",
        "compile 1 2",
        "compile 1",
        "compile 0",
        "compile 1 2 0 1",
        "compile 1 -2 1 1",
        "compile -1 2 1 1",
        "compile 1 +2 1 1",
        "compile 1 2 1 +1",
        "compile 1 02 1 1",
        "compile 01 2 1 1",
        "compile 1 2 1 01",
        "compile 1 2 1 -01",
        "compile 1 2 1 -0",
        "compile 1 00 1 1",
        "compile 1 2 1 -",
        "compile 1 2 1 --1",
        "compile 1 2 1 1-",
        "compile 1 2x 1 1",
        "compile 1 x 1 1",
        "compile 1 : 1 1",
        "compile 1 / 1 1",
        "compile 1 2.0 1 1",
        "compile 1 0x2 1 1",
        "compile 1 18446744073709551616 1 1",
        "compile 1 184467440737095516150 1 1",
        "compile 1 2 1 9223372036854775808",
        "compile 1 2 1 -9223372036854775809",
        "compile 1 2 1 99999999999999999999999999",
        "compile " + " ".join(["33"] + ["1"] * 33 + ["33"] + ["1"] * 33),
        "compile " + " ".join(["33"] + ["1"] * 33 + ["1", "1"]),
        "compile " + " ".join(["1", "1", "33"] + ["1"] * 33),
        "compile 18446744073709551615 1 1 1",
        "list",
        "list 1 4 1 1",
        "list 1 4 1 1 0 0 4 4",
        "list 1 4 1 1 0 0 4 4 2 0",
        "list 1 4 1 1 0 0 4 4 1 0 0",
        "list 1 4 1 1 0 0 4 4 0 ",
        "list 1 4 1 1 9223372036854775808 0 4 4 0",
        "list 1 4 1 1 -0 0 4 4 0",
        "list 1 4 1 1 0 -1 4 4 0",
        "list 1 4 1 1 0 0 -4 4 0",
        "list 1 4 1 1 0 0 4 -4 0",
        "list 1 4 1 1 0 0 18446744073709551616 4 0",
        "list 1 4 1 1 0 0 4 18446744073709551616 0",
        "list 1 4 1 1 0 0 4 4 1 -9223372036854775809",
        "list 1 4 1 1 0 0 4 4 4097" + " 0" * 4097,
        "list 1 4 1 1 0 0 4 4 4097",
        "unknown 1 2 3",
        "1 2 3",
        "\x00",
        "compile 1 2 1 1\x00",
        "compile 1 2 1 1 \u00e9",
        *malformed_joins(),
        *stored_products.malformed_lines(),
        # A line of 128 KiB, and one of a byte more.
        "x" * 131072,
        "x" * 131073,
    ]
    between_good_lines(bad)


def longest():
    """The longest numbers, the most axes and the fullest buffer that a line can hold."""
    compile_([2**64 - 1] * 32, [LEAST] * 32)
    compile_([2**64 - 1], [LEAST])
    list_([2**64 - 1], [LEAST], LEAST, 2**64 - 1, 2**64 - 1, 2**64 - 1, [LEAST, MOST])
    list_([1], [0], 0, 0, 1, 1, [LEAST] * 4096)
    list_([4096], [1], MOST - 4095, 0, 4096, 2**63, [0] * 4096)


def main():
    for group in [
        named_layouts,
        refusal_1,
        refusal_2,
        sixteen_axes,
        refusal_3,
        refusal_4,
        refusal_5,
        refusal_6,
        refusal_7,
        refusal_8,
        order_of_axes,
        fusing,
        sizes_0_and_1,
        ranges,
        products,
        ties,
        signs,
        bad_marks,
        refusal_9,
        refusal_10,
        *stored_products.GROUPS,
        longest,
        malformed,
        *stored_figures.GROUPS,
        *stored_search.GROUPS,
        *stored_jobs.GROUPS,
        *stored_steps.GROUPS,
        *stored_ranges.GROUPS,
        *stored_order.GROUPS,
        *stored_subnormal.GROUPS,
        *stored_windows.GROUPS,
    ]:
        group()
    # The last line has no newline, and counts all the same.
    sys.stdout.buffer.write("\n".join(OUT).encode())


main()
