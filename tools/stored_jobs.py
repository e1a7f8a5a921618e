"""The stored cases of `read` and `write`, a function for each group.

A word is a pair of its kind and its payload here, and a job a list of words.
"""

from case_lines import GAPS, LEAST, MOST, PLAN, WRONG_BYTES, WRONG_SIGNED, WRONG_UNSIGNED
from case_lines import between_good_lines, items, say, spoiled

KINDS = range(8)
MORE, SIZE, STRIDE, BASE, START, END, FINISH, UNUSED = KINDS
PAYLOADS = 2**29
# The first third word that takes a number past 64 bits.
PAST = 64
# Three jobs as sizes, strides, base, start, end: the shortest, one whose numbers have a word each, and one of which
# they have 2, 3, 1, 2 and 3.
SHORT = ([], [], 5, 0, 1)
PLAIN = ([4, 6], [6, -1], 3, 2, 20)
LONG = ([2**29 + 7], [-(2**60) - 1], -3, 2**40, 2**63 + 5)


def signed(n):
    return 2 * n if n >= 0 else -2 * n - 1


def number(kind, sent):
    """The fewest words of a number."""
    words = [(kind, sent % PAYLOADS)]
    while sent >= PAYLOADS:
        sent //= PAYLOADS
        words.append((MORE, sent % PAYLOADS))
    return words


def axes(sizes, strides):
    return [word for s, t in zip(sizes, strides) for word in number(SIZE, s) + number(STRIDE, signed(t))]


def job(sizes, strides, base, start, end):
    return [*axes(sizes, strides), *number(BASE, signed(base)), *number(START, start), *number(END, end), (FINISH, 0)]


def bytes_of(words):
    return list(b"".join((kind * PAYLOADS + payload).to_bytes(4, "little") for kind, payload in words))


def marks(count):
    """Contents of a buffer: no two neighbours are equal."""
    return [(7 * i + 3) % 256 for i in range(count)]


def read(words, behind=()):
    say(f"read {items([*bytes_of(words), *behind])}")


def write(what, buffer):
    sizes, strides, base, start, end = what
    say(f"write {items(sizes)} {items(strides)} {base} {start} {end} {items(buffer)}")


def both(*what):
    """Written into a buffer that is a byte longer, and read."""
    words = job(*what)
    write(what, marks(4 * len(words) + 1))
    read(words)


# ---- jobs as they should be


def plain_jobs():
    """The three jobs, a seat plan of nine axes, and numbers of which each byte is another."""
    for what in [SHORT, PLAIN, LONG, (PLAN, GAPS, 0, 0, 1536)]:
        both(*what)
    both([0x1234567], [0x89ABCDE], 0x0FEDCBA98, 0x123456789ABCDE, 0xF0E1D2C3B4A59687)


def not_judged():
    """Sizes 0 and 1, layouts that overflow or lie outside, ranges that are empty or reversed: read and written all the
    same."""
    for what in [
        ([0], [0], 0, 0, 0),
        ([1, 1], [LEAST, MOST], 0, 7, 7),
        ([2**64 - 1, 2], [MOST, LEAST], LEAST, 9, 3),
        ([2**63, 2, 0], [1, 1, 1], -1, 0, 2**64 - 1),
        ([2**41], [1], MOST, 2**64 - 1, 0),
    ]:
        both(*what)


def lengths_of_numbers():
    """Each number in turn on both sides of what a word more is needed for, and the least and the greatest of all."""
    for n in [0, 1, 2**29 - 1, 2**29, 2**29 + 1, 2**58 - 1, 2**58, 2**63 - 1, 2**63, 2**64 - 1]:
        both([n], [0], 0, 0, 0)
        both([], [], 0, n, 0)
        both([], [], 0, 0, n)
    for n in [1, 2**28 - 1, 2**28, 2**57 - 1, 2**57, MOST]:
        for turned in [n, -n, -n - 1]:
            both([0], [turned], 0, 0, 0)
            both([], [], turned, 0, 0)


def counts_of_axes():
    """No axis, one, and up to sixteen, whose places are all told apart."""
    for count in [0, 1, 2, 3, 8, 9, 15, 16]:
        both(list(range(1, count + 1)), list(range(-8, count - 8)), 40, 50, 60)
    # The longest job.
    most = ([2**64 - 1] * 16, [LEAST] * 16, LEAST, 2**64 - 1, 2**64 - 1)
    both(*most)
    for buffer in [[0] * 424, [0] * 423]:
        write(most, buffer)


def needless_words():
    """Each number with one needless word of zeros and with two, all of them with two; a zero between is not needless.
    With a third one, whatever it holds, the number is refused."""
    for what in [PLAIN, LONG]:
        words = job(*what)
        for place in range(1, len(words)):
            if words[place][0] != MORE:
                for count in [1, 2, 3]:
                    read([*words[:place], *[(MORE, 0)] * count, *words[place:]])
    zeros = [(MORE, 0)] * 2
    read([word for pair in job(*PLAIN)[:-1] for word in [pair, *zeros]] + [(FINISH, 0)])
    words = job(*PLAIN)
    for place in range(1, 8):
        read([*words[:place], (MORE, 0), (MORE, 1), *words[place:]])
        read([*words[:place], *zeros, (MORE, 1), *words[place:]])


# ---- the writer's refusals


def buffers():
    """Buffers of each length about the job's: shorter ones stay as they are, longer ones keep what is behind it."""
    for what in [SHORT, PLAIN, LONG]:
        length = 4 * len(job(*what))
        for count in [0, 1, length - 4, length - 3, length - 2, length - 1, length, length + 1, length + 3, length + 4]:
            write(what, marks(count))
        for byte in [0, 255]:
            write(what, [byte] * (length - 1))
            write(what, [byte] * (length + 2))
    write(PLAIN, marks(4096))


def refusals_of_the_writer():
    """Refusal 1, before 2 and before 13; 2, before 13; 13. Sizes of 1 count as axes."""
    for sizes, strides in [([2, 3], [1]), ([2], [1, 2]), ([], [1]), ([2], [])]:
        for count in [60, 3, 0]:
            write((sizes, strides, 7, 8, 9), marks(count))
    for sizes, strides in [(17, 16), (16, 17), (18, 17), (32, 31), (0, 32), (17, 0)]:
        for count in [280, 0]:
            write(([1] * sizes, [0] * strides, 7, 8, 9), marks(count))
    for count in [15, 16, 17, 18, 32]:
        length = 8 * count + 16
        for places in [length, length - 1, 0]:
            write(([1] * count, [-1] * count, 7, 8, 9), marks(places))
    # What the layout would be refused for elsewhere comes after none of these.
    write(([2**63, 2], [LEAST], 0, 9, 3), [])
    write(([2**63] * 17, [LEAST] * 17, 0, 9, 3), [])
    write(([2**63] * 16, [LEAST] * 16, 0, 9, 3), [])


# ---- the reader's refusals


def replaced():
    """In the place of each word one of each kind, with that word's payload, with 0, and in the shorter jobs with 1."""
    for what, payloads in [(SHORT, [0, 1]), (PLAIN, [0, 1]), (LONG, [0])]:
        words = job(*what)
        for place, (_, own) in enumerate(words):
            for other in [(kind, payload) for kind in KINDS for payload in dict.fromkeys([own, *payloads])]:
                if other != words[place]:
                    read([*words[:place], other, *words[place + 1 :]])


def inserted():
    """A word of each kind put in front of each word, and behind the last: out of order, one axis without its other
    half, or more of a number."""
    for what, payloads in [(SHORT, [0]), (PLAIN, [0, 1])]:
        words = job(*what)
        for place in range(len(words) + 1):
            for other in [(kind, payload) for kind in KINDS for payload in payloads]:
                read([*words[:place], other, *words[place:]])


def dropped_and_doubled():
    """Each run of words dropped, and each there twice: so a word of each kind comes behind one of each other kind, and
    nothing else is wrong. In the long job it is each word."""
    for what, most in [(SHORT, 4), (PLAIN, 8), (LONG, 1)]:
        words = job(*what)
        for first in range(len(words)):
            for past in range(first + 1, min(first + most, len(words)) + 1):
                read([*words[:first], *words[past:]])
                read([*words[:past], *words[first:]])


def exchanged():
    """Each word exchanged with the next one."""
    for what in [SHORT, PLAIN, LONG]:
        words = job(*what)
        for place in range(len(words) - 1):
            read([*words[:place], words[place + 1], words[place], *words[place + 2 :]])


def cut():
    """Jobs that end after each of their bytes, the first after none: a word is missing, or a part of it is there. And
    4,096 bytes, the most that a line has; words with the highest byte first."""
    for what in [SHORT, LONG]:
        all_of_it = bytes_of(job(*what))
        for count in range(len(all_of_it)):
            read([], all_of_it[:count])
    read([], [0] * 4096)
    read([], [byte for at in range(0, 32, 4) for byte in reversed(bytes_of(job(*PLAIN))[at : at + 4])])


def behind_finish():
    """Bytes behind finish, whatever they are: one to five, a word of each kind, the job again. A payload of finish."""
    words = job(*SHORT)
    for byte in [0, 192, 255]:
        for count in [1, 2, 3, 4, 5]:
            read(words, [byte] * count)
    for kind in KINDS:
        read([*words, (kind, 7)])
    read([*words, *words])
    for payload in [1, 2, 256, 2**16, 2**28, PAYLOADS - 1]:
        read([*words[:-1], (FINISH, payload)])


def past_64_bits():
    """Each number at its greatest and just past it, by its third word, with the words below all zeros and all ones. The
    number as it is sent counts, so a stride and a base have no less room. A word more is refused beside both."""
    words = job(*PLAIN)
    for place in range(2, 7):
        kind = words[place][0]
        for low in [0, PAYLOADS - 1]:
            for third in [PAST - 1, PAST, PAST + 1, PAYLOADS - 1]:
                read([*words[:place], (kind, low), (MORE, low), (MORE, third), *words[place + 1 :]])
        for third in [PAST - 1, PAST]:
            read([*words[:place], (kind, 1), (MORE, 0), (MORE, third), (MORE, 0), *words[place + 1 :]])
    # A second word has no such end, and neither has a word of kind 0 where it is out of order.
    for second in [PAST - 1, PAST, PAYLOADS - 1]:
        read([(SIZE, 4), (MORE, second), *words[1:]])
        read([(MORE, second), *words])
        read([*words, (MORE, second)])


def seventeenth_size():
    """Sixteen axes are read. A seventeenth size in its order is refused by 2, whatever it holds and whatever is behind
    it. In any other place it is a kind out of order, and a part of it is no word."""
    sixteen = axes([2] * 16, [1] * 16)
    end = [(BASE, 0), (START, 0), (END, 1), (FINISH, 0)]
    for seventeenth in [[(SIZE, 0)], [(SIZE, 1)], [(SIZE, PAYLOADS - 1)], [(SIZE, 1), (STRIDE, 2)]]:
        read([*sixteen, *seventeenth, *end])
        read([*sixteen, *seventeenth])
    read([*sixteen, *sixteen, *end])
    read([*sixteen, (SIZE, 0), (MORE, 0), (MORE, PAST), *end])
    # The last stride has a word more, or two or three.
    for count in [1, 2, 3]:
        read([*sixteen, *[(MORE, 0)] * count, *end])
        read([*sixteen, *[(MORE, 0)] * count, (SIZE, 1), *end])
    # A size behind the sixteenth size, behind base and behind finish; a stride behind the last.
    read([*sixteen[:-1], (SIZE, 2), (STRIDE, 2), *end])
    read([*sixteen[:-2], (SIZE, 2), (SIZE, 2), (STRIDE, 2), *end])
    read([*sixteen, end[0], (SIZE, 2), (STRIDE, 2), *end[1:]])
    read([*sixteen, *end, (SIZE, 2)])
    read([*sixteen, (STRIDE, 2), *end])
    for count in [1, 2, 3]:
        read(sixteen, bytes_of([(SIZE, 1)])[:count])


def first_fault():
    """Two faults in one job: the left one is told, whatever their numbers."""
    base = [(BASE, 0), (MORE, 0), (MORE, PAST)]
    rest = [(START, 0), (END, 1), (FINISH, 0)]
    left = [
        [(SIZE, 4), (UNUSED, 2)],
        [(SIZE, 4), (SIZE, 4), (STRIDE, 2)],
        [(SIZE, 4), (MORE, 0), (MORE, PAST), (STRIDE, 2)],
        [(SIZE, 4), *[(MORE, 0)] * 3, (STRIDE, 2)],
        axes([2] * 17, [1] * 17),
    ]
    right = [
        [*base, *rest],
        [(BASE, 0), *[(MORE, 0)] * 3, *rest],
        [(BASE, 0), (UNUSED, 0), *rest],
        [(BASE, 0), *rest[:-1], (FINISH, 1)],
        [(BASE, 0), *rest, (FINISH, 0)],
        [(BASE, 0), *rest[:-1]],
    ]
    for one in left:
        for other in right:
            read([*one, *other])
    # The seventeenth size behind another fault.
    for one in left[:-1]:
        read([*one, *left[-1], (BASE, 0), *rest])
    # One word of a number past 64 bits and the next one a word too many; a number past them and then the end.
    read([(SIZE, 4), (MORE, 0), (MORE, PAST), (MORE, 0), (UNUSED, 0)])
    read([(SIZE, 4), (MORE, 0), (MORE, PAST)], [0])


# ---- malformed lines


def malformed():
    """Each word of both lines in turn not of the format: bytes above 255, counts above the limits, items that are too
    few or too many. A line may have 4,096 bytes."""
    counts = [*WRONG_UNSIGNED, "33", str(2**64 - 1)]
    byte_counts = [*WRONG_UNSIGNED, "1", "3", "4097", str(2**64 - 1)]
    lines = spoiled("read", ["2", "0", "255"], [byte_counts, WRONG_BYTES, WRONG_BYTES])
    good = ["1", "2", "1", "1", "0", "0", "2", "2", "0", "255"]
    wrong = [counts, ["-1", str(2**64)], counts, ["-0", str(MOST + 1)], WRONG_SIGNED, ["-1", str(2**64)], ["-1", "02"]]
    lines += spoiled("write", good, [*wrong, byte_counts, WRONG_BYTES, ["256", ""]])
    lines += ["read 4097" + " 0" * 4097, "write 0 0 0 0 0 4097" + " 0" * 4097, "job 0"]
    between_good_lines(lines)


GROUPS = [
    plain_jobs,
    not_judged,
    lengths_of_numbers,
    counts_of_axes,
    needless_words,
    buffers,
    refusals_of_the_writer,
    replaced,
    inserted,
    dropped_and_doubled,
    exchanged,
    cut,
    behind_finish,
    past_64_bits,
    seventeenth_size,
    first_fault,
    malformed,
]
