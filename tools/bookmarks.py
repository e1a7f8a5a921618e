"""What a caller of `step` hands on from call to call, worked out here so that stored lines can follow each other.

A range is a tuple of sizes, strides, base, start, end and table, an accumulator one of the bits of m, e and the mark.
Only layouts that are accepted come here.
"""

import struct

from case_lines import INFINITE, ONE, SIGN, unit

LANES = 8
IDENTITY = (unit(ONE), 0, 0)


def number_of(bits):
    return struct.unpack(">d", bits.to_bytes(8, "big"))[0]


def bits_of(number):
    return int.from_bytes(struct.pack(">d", number), "big")


def split(bits):
    """Rule A2. No table here has a NaN of another pattern than the one."""
    sign, size = bits // SIGN * SIGN, bits % SIGN
    e, fraction = size // ONE - 1023, size % ONE
    if 0 < size < ONE:
        # A subnormal: its highest one goes to the leading place, and e down by as many places.
        places = 53 - fraction.bit_length()
        e, fraction = -1022 - places, fraction * 2**places - ONE
    return unit(ONE) + fraction + sign, e, int(size == 0 or size >= INFINITE)


def joined(left, right):
    """Rule A3."""
    if left[2] or right[2]:
        return left[0], left[1], 1
    m, e = number_of(left[0]) * number_of(right[0]), left[1] + right[1]
    return (bits_of(m), e, 0) if abs(m) < 2 else (bits_of(m / 2), e + 1, 0)


def worked(values, stride):
    """A piece by rule A4 or A5. They differ in bad rates alone: rule A4 multiplies these like others."""
    parts = [split(value) for value in values]
    bad = int(any(part[2] for part in parts))
    lanes = [IDENTITY] * LANES
    for i, (m, e, mark) in enumerate(parts):
        lanes[i % LANES] = joined(lanes[i % LANES], (m, e, 0 if stride == 1 else mark))
    acc = IDENTITY
    for lane in lanes:
        acc = joined(acc, lane)
    return acc[0], acc[1], bad


def axes_of(sizes, strides):
    """Rule L2, with an axis of one element where there is none."""
    kept = [axis for axis in zip(sizes, strides) if axis[0] != 1]
    return sorted(kept, key=lambda axis: (axis[1] == 0, abs(axis[1]), axis[1] < 0)) or [(1, 1)]


def run_of(axes):
    """The length of a run, by rules L4 and L5."""
    length, stride = axes[0]
    for size, next_stride in axes[1:]:
        if length * stride != next_stride:
            break
        length *= size
    return length


def value_of(range_, axes, element):
    at = range_[2]
    for size, stride in axes:
        at += element % size * stride
        element //= size
    return range_[5][at]


def pieces(range_):
    """The pieces of a range (rule A6): where each begins, and its accumulator."""
    sizes, strides, _, start, end, _ = range_
    axes = axes_of(sizes, strides)
    run = run_of(axes)
    cuts = [start, *range((start // run + 1) * run, end, run), end]
    for first, past in zip(cuts, cuts[1:]):
        yield first, worked([value_of(range_, axes, element) for element in range(first, past)], axes[0][1])


def bookmarks(range_, count):
    """The bookmarks of a caller who works `count` pieces in each call, but for the first, which is the start."""
    acc = None
    for number, (first, piece) in enumerate(pieces(range_)):
        if number and number % count == 0:
            yield first, acc
        acc = joined(acc, piece) if number else piece
