"""The lines of the case format, as the stored cases use them. A float is given by its bits."""

LEAST = -(2**63)
MOST = 2**63 - 1
MANY = 2**40
# Accumulators: the largest exponent, |m| × 2^52 at 1, 2 and 1.5, the bit of the sign, the marks of which one is bad.
LIMIT = 2**52
ONE = 2**52
TWO = 2**53
SIGN = 2**63
THREE_HALVES = 3 * 2**51
BAD = [(0, 1), (1, 0), (1, 1)]
INFINITE = 2047 * 2**52
# Nine axes, house, level, block, row, seat, day, hour, channel and class, and strides by which no two of them meet.
PLAN = [2, 2, 2, 3, 4, 2, 2, 2, 2]
GAPS = [1507, 753, 376, 125, 31, 15, 7, 3, 1]
# Words that stand for no number of each kind.
WRONG_FLOATS = ["", "ff8000000000000", "3ff80000000000000", "3FF8000000000000", "0xf8000000000000", "+ff8000000000000"]
WRONG_FLOATS += ["1.5", *("3ff800000000000" + byte for byte in "g/:`")]
WRONG_SIGNED = ["", "+1", "-0", "01", "1.0", str(MOST + 1), str(LEAST - 1), "3ff8000000000000"]
WRONG_UNSIGNED = ["", "+1", "-1", "01", "1.0", str(2**64), "x"]
WRONG_BYTES = [*WRONG_UNSIGNED, "-0", "00", "256", "1000"]
WRONG_MARKS = ["", "2", "00", "01", "-0", "true", str(2**64)]
OUT = []
# The list calls so far, for the reductions over the same layouts.
LISTED = []


def say(line):
    OUT.append(line)


def items(numbers):
    return " ".join(str(n) for n in [len(numbers), *numbers])


def floats(values):
    return " ".join([str(len(values)), *(f"{value:016x}" for value in values)])


def apart(pairs):
    """The first ones of all pairs, and the second ones."""
    return [first for first, _ in pairs], [second for _, second in pairs]


def needed(sizes, strides, base):
    """How many values a layout needs whose elements all lie at 0 or above."""
    return base + 1 + sum((size - 1) * max(stride, 0) for size, stride in zip(sizes, strides))


def marks(count):
    """Contents of a buffer that no offset equals."""
    return [-1 - i for i in range(count)]


def compile_(sizes, strides):
    say(f"compile {items(sizes)} {items(strides)}")


def list_(sizes, strides, base, start, end, length, buffer):
    LISTED.append((sizes, strides, base, start, end, length))
    say(f"list {items(sizes)} {items(strides)} {base} {start} {end} {length} {items(buffer)}")


def reduce(sizes, strides, base, start, end, values, word="reduce"):
    say(f"{word} {items(sizes)} {items(strides)} {base} {start} {end} {floats(values)}")


def in_words(words, sizes, strides, base, start, end, values):
    """One range as each of the words."""
    for word in words:
        reduce(sizes, strides, base, start, end, values, word)


def join(left, right):
    """Each is the bits of m, e and the mark."""
    say("join " + " ".join(f"{m:016x} {e} {bad}" for m, e, bad in [left, right]))


def finish(m, e, bad=0):
    say(f"finish acc {m:016x} {e} {bad}")


def unit(significand):
    """The bits of an m from its |m| × 2^52, which a minus turns."""
    return rate(significand, 0)


def rate(significand, e):
    """The bits of |m| × 2^e, where the significand is |m| × 2^52 and a minus turns it."""
    return (1023 + e) * 2**52 + abs(significand) - ONE + (SIGN if significand < 0 else 0)


def patterns_of_m():
    """Bits of m about both ends of [1, 2), and of every other sort of float, without their signs."""
    one, two = unit(ONE), unit(ONE) + 2**52
    beside = [one - 1, one, two - 1, two, two + 1]
    small = [0, 1, 2**52 - 1, 2**52]
    nans = [INFINITE + extra for extra in [1, 2**51 - 1, 2**51, 2**51 + 1, 2**52 - 1]]
    return [*beside, *small, INFINITE - 1, INFINITE, *nans]


def spoiled(word, good, wrong):
    """Lines that are not of the format: a good one in which one word is replaced, its beginnings, and its neighbours.

    `good` holds the words after the first, and `wrong` what may not stand in the place of each.
    """
    lines = [word]
    for place, texts in enumerate(wrong):
        for text in texts:
            lines.append(" ".join([word, *good[:place], text, *good[place + 1 :]]))
    for count in range(len(good)):
        lines.append(word + " " + " ".join(good[:count]))
    line = " ".join([word, *good])
    other = [word + "s" + line[len(word) :], line[0].upper() + line[1:]]
    return [*lines, line + " ", line + " 0", line.replace(" ", "  ", 1), *other]


def between_good_lines(lines):
    """Lines that are not of the format, each between two that are."""
    good = "compile 1 2 1 1"
    say(good)
    for line in lines:
        say(line)
        say(good)
