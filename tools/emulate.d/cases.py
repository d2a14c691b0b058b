"""Pairs over every name with a machine meaning, files for them and marks, by chance; every run has the same ones."""
import random

# Three registers of the same length: name, U, opc, B and the sizes that have a meaning (A7-9).
SAME = [
    ("vand", 0, 1, 1, [0]), ("vbic", 0, 1, 1, [1]), ("vorr", 0, 1, 1, [2]), ("vorn", 0, 1, 1, [3]),
    ("veor", 1, 1, 1, [0]), ("vbsl", 1, 1, 1, [1]), ("vbit", 1, 1, 1, [2]), ("vbif", 1, 1, 1, [3]),
    ("vadd.i", 0, 8, 0, [0, 1, 2, 3]), ("vsub.i", 1, 8, 0, [0, 1, 2, 3]),
    ("vmul.i", 0, 9, 1, [0, 1, 2]), ("vmla.i", 0, 9, 0, [0, 1, 2]), ("vmls.i", 1, 9, 0, [0, 1, 2]),
    ("vmax.s", 0, 6, 0, [0, 1, 2]), ("vmax.u", 1, 6, 0, [0, 1, 2]),
    ("vmin.s", 0, 6, 1, [0, 1, 2]), ("vmin.u", 1, 6, 1, [0, 1, 2]),
    ("vcgt.s", 0, 3, 0, [0, 1, 2]), ("vcgt.u", 1, 3, 0, [0, 1, 2]),
    ("vcge.s", 0, 3, 1, [0, 1, 2]), ("vcge.u", 1, 3, 1, [0, 1, 2]),
    ("vceq.i", 1, 8, 1, [0, 1, 2]), ("vtst", 0, 8, 1, [0, 1, 2]),
]
# Saturating and halving sums and differences: name, opc, B, how many sizes have a meaning, and whether it is a
# difference; each signed with U = 0 and unsigned with U = 1 (A7-9).
ENDS = [
    ("vqadd", 0, 1, 4, False), ("vqsub", 2, 1, 4, True),
    ("vhadd", 0, 0, 3, False), ("vrhadd", 1, 0, 3, False), ("vhsub", 2, 0, 3, True),
]
# Shifts by an amount: name, U, A, and whether the amount counts up from 0 (A7-12).
SHIFT = [("vshr.s", 0, 0, False), ("vshr.u", 1, 0, False), ("vshl.i", 0, 5, True)]
# Three registers of different lengths: name, A, the U that have a meaning, and which of d, n, m are quads (A7-10).
DIFFERENT = [
    ("vaddl", 0, [0, 1], (1, 0, 0)), ("vsubl", 2, [0, 1], (1, 0, 0)), ("vmull", 12, [0, 1], (1, 0, 0)),
    ("vmlal", 8, [0, 1], (1, 0, 0)), ("vmlsl", 10, [0, 1], (1, 0, 0)),
    ("vaddw", 1, [0, 1], (1, 1, 0)), ("vsubw", 3, [0, 1], (1, 1, 0)),
    ("vaddhn", 4, [0], (0, 1, 1)), ("vsubhn", 6, [0], (0, 1, 1)),
]
# Shifts between lanes of w and 2w bits: name, A, U, which of d, m are quads, the least amount and the greatest (A7-12).
RESIZE = [
    ("vmovl", 10, [0, 1], (1, 0), 0, lambda w: 0), ("vshll", 10, [0, 1], (1, 0), 1, lambda w: w - 1),
    ("vshrn", 8, [0], (0, 1), 1, lambda w: w),
]
# The widths of the lanes in a word of extreme values.
SPLITS = [[8] * 8, [16] * 4, [32] * 2, [64], [8, 8, 16, 32], [32, 16, 8, 8], [16, 8, 8, 32], [8, 16, 8, 16, 16]]


class Chance(random.Random):
    """Chances, and the D registers that pairs use: how many, and the first, an even number."""
    registers = 32
    first = 0


def number(rng, quad):
    """A register's number, even for a quad."""
    return rng.first + (rng.randrange(rng.registers // 2) * 2 if quad else rng.randrange(rng.registers))


def same(rng, row):
    _, u, opc, b, sizes = row
    quad = rng.randrange(2)
    d, n, m = (number(rng, quad) for _ in range(3))
    overlap = rng.randrange(6)
    n, m = [(n, m), (d, m), (n, d), (n, n), (d, d), (n, m)][overlap]
    hw1 = 0xEF00 | u << 12 | (d >> 4) << 6 | rng.choice(sizes) << 4 | n & 15
    hw2 = (d & 15) << 12 | opc << 8 | (n >> 4) << 7 | quad << 6 | (m >> 4) << 5 | b << 4 | m & 15
    return hw1, hw2


def shift(rng, row):
    _, u, a, up = row
    quad = rng.randrange(2)
    d = number(rng, quad)
    m = rng.choice([d, number(rng, quad)])
    width = rng.choice([8, 16, 32, 64])
    amount = rng.randrange(width) if up else rng.randrange(width) + 1
    field = (width + amount if up else 2 * width - amount) & 127
    hw1 = 0xEF80 | u << 12 | (d >> 4) << 6 | field & 63
    hw2 = (d & 15) << 12 | a << 8 | (field >> 6) << 7 | quad << 6 | (m >> 4) << 5 | 1 << 4 | m & 15
    return hw1, hw2


def immediate(rng):
    """Any modified immediate but the undefined row; a zero imm8 only where it is allowed."""
    op, cmode = rng.choice([(o, c) for o in (0, 1) for c in range(16) if (o, c) != (1, 15)])
    imm8 = rng.randrange(256) or (1 if cmode >> 1 in (1, 2, 3, 5, 6) else 0)
    quad = rng.randrange(2)
    d = number(rng, quad)
    hw1 = 0xEF80 | (imm8 >> 7) << 12 | (d >> 4) << 6 | imm8 >> 4 & 7
    hw2 = (d & 15) << 12 | cmode << 8 | quad << 6 | op << 5 | 1 << 4 | imm8 & 15
    return hw1, hw2


def beside(rng, other, quad):
    """A register in the quad of another one: that quad, or either half."""
    return other & ~1 | (0 if quad else rng.randrange(2))


def different(rng, row, u, size):
    _, a, _, (quad_d, quad_n, quad_m) = row
    d = number(rng, quad_d)
    n = rng.choice([number(rng, quad_n), beside(rng, d, quad_n)])
    m = rng.choice([number(rng, quad_m), beside(rng, d, quad_m), beside(rng, n, quad_m)])
    hw1 = 0xEF80 | u << 12 | (d >> 4) << 6 | size << 4 | n & 15
    hw2 = (d & 15) << 12 | a << 8 | (n >> 4) << 7 | (m >> 4) << 5 | m & 15
    return hw1, hw2


def resize(rng, row, u, size):
    _, a, _, (quad_d, quad_m), least, greatest = row
    d = number(rng, quad_d)
    m = rng.choice([number(rng, quad_m), beside(rng, d, quad_m)])
    width = 8 << size
    amount = rng.randint(least, greatest(width))
    field = 2 * width - amount if quad_m else width + amount
    hw1 = 0xEF80 | u << 12 | (d >> 4) << 6 | field
    hw2 = (d & 15) << 12 | a << 8 | (m >> 4) << 5 | 1 << 4 | m & 15
    return hw1, hw2


# Every name with registers of different lengths: its maker, row, U and size.
UNLIKE = [
    (maker, row, u, size)
    for maker, rows in ((different, DIFFERENT), (resize, RESIZE)) for row in rows for u in row[2] for size in range(3)
]


# Every saturating or halving name: its row, U and size.
AT_ENDS = [(row, u, size) for row in ENDS for u in (0, 1) for size in range(row[3])]


def alike(rng, k):
    """A pair with registers of one length, kind by kind in turn."""
    at = k % (len(SAME) + 3 * len(SHIFT) + 8)
    if at < len(SAME):
        return same(rng, SAME[at])
    if at < len(SAME) + 3 * len(SHIFT):
        return shift(rng, SHIFT[at % len(SHIFT)])
    return immediate(rng)


def unlike(rng, k):
    """A pair with registers of different lengths, name by name in turn."""
    maker, *name = UNLIKE[k % len(UNLIKE)]
    return maker(rng, *name)


def word(rng):
    """64 bits: random, or lanes of one width or of several, most of them at the ends of their range."""
    if rng.randrange(2):
        return rng.getrandbits(64)
    bits = 0
    for width in rng.choice(SPLITS):
        ends = [0, 1, (1 << width - 1) - 1, 1 << width - 1, (1 << width) - 1, rng.getrandbits(width)]
        bits = bits << width | rng.choice(ends)
    return bits


def around(rng, width, signed, minus):
    """Two lanes whose sum or difference is at or around an end of the range; if there are none, at their own ends."""
    low = -(1 << width - 1) if signed else 0
    high = low + (1 << width) - 1
    n = rng.choice([low, low + 1, high - 1, high, rng.randint(low, high), rng.randint(low, high)])
    goal = rng.choice([low, high]) + rng.randint(-2, 2)
    m = n - goal if minus else goal - n
    if not low <= m <= high:
        m = rng.choice([low, low + 1, high - 1, high])
    return n % (1 << width), m % (1 << width)


def end_pair(rng, entry):
    """The pair of an entry of AT_ENDS."""
    (name, opc, b, _, _), u, size = entry
    return same(rng, (name, u, opc, b, [size]))


def put_around(rng, entry, pair, file):
    """Lanes as in around put into the sources of a pair of an entry of AT_ENDS."""
    (*_, minus), u, size = entry
    hw1, hw2 = pair
    n, m = (hw2 >> 7 & 1) << 4 | hw1 & 15, (hw2 >> 5 & 1) << 4 | hw2 & 15
    width = 8 << size
    for half in range(1 + (hw2 >> 6 & 1)):
        lanes = [around(rng, width, not u, minus) for _ in range(64 // width)]
        file[n + half] = sum(x << width * i for i, (x, _) in enumerate(lanes))
        file[m + half] = sum(y << width * i for i, (_, y) in enumerate(lanes))


def at_ends(rng, k):
    """A saturating or halving pair, name by name in turn, and its file, mostly with sources as in around."""
    entry = AT_ENDS[k % len(AT_ENDS)]
    pair = end_pair(rng, entry)
    file = [word(rng) for _ in range(32)]
    if rng.randrange(4):
        put_around(rng, entry, pair, file)
    return pair, file


def saturates(pair):
    """Whether a pair is a vqadd or a vqsub."""
    hw1, hw2 = pair
    return hw1 & 0xEF80 == 0xEF00 and hw2 & 0x0D10 == 0x0010


def cases(count):
    """The pairs, each with a file: with registers of one length and of different lengths in turns, then at_ends."""
    rng = Chance(1)
    for k in range(count - count // 3):
        yield (unlike if k % 2 else alike)(rng, k // 2), [word(rng) for _ in range(32)]
    for k in range(count // 3):
        yield at_ends(rng, k)


def marks(count):
    """As many marks, a quarter of them 1. Their chances are their own, so that no pair and no file hangs on them."""
    rng = Chance(2)
    return [int(rng.randrange(4) == 0) for _ in range(count)]
