"""Programs of up to twelve pairs, each with a start, a file and a mark, by chance; every run has the same ones."""
from dataclasses import dataclass

from cases import AT_ENDS, Chance, alike, end_pair, put_around, saturates, unlike, word

LONGEST = 12
# Pairs that a run refuses, with the number: as in sheets.d/compare.rs, then some without a meaning here that turn the
# mark on ARM: vqshl.s8 and vqrshl.u8 by registers, vqshl.s8 by an amount, vqshrn.s16 and vqdmlal.s16.
REFUSED = [
    ((0xEFB0, 0x0000), 1), ((0x0000, 0x0000), 1), ((0xEF90, 0x0E10), 2), ((0xEF80, 0x0F30), 3), ((0xEF80, 0x0210), 4),
    ((0xEF00, 0x0B50), 5), ((0xEF80, 0x1000), 6), ((0xEF01, 0x0402), 10), ((0xEF80, 0x0700), 10),
    ((0xFF80, 0x0400), 10), ((0xEF00, 0x0B10), 10), ((0xEFA0, 0x0E10), 10),
    ((0xEF01, 0x0412), 10), ((0xFF01, 0x0512), 10), ((0xEF8F, 0x0712), 10), ((0xEF8F, 0x0912), 10),
    ((0xEF91, 0x0902), 10),
]
# The entries of vqadd and vqsub, and those of the halving names.
SATURATING = [entry for entry in AT_ENDS if entry[0][0] in ("vqadd", "vqsub")]
HALVING = [entry for entry in AT_ENDS if entry not in SATURATING]


@dataclass
class Program:
    """What a run with budget enough answers is 0 or a refusal, after so many pairs as it reaches."""
    pairs: list
    start: int
    file: list
    mark: int
    answer: int
    reach: int

    def ahead(self):
        """The pairs that such a run executes."""
        return self.pairs[self.start:self.start + self.reach]


def small(rng):
    """64 bits of lanes that are small numbers, so that some sums go by before one is cut off."""
    width = rng.choice([8, 16, 32, 64])
    return sum(rng.randrange(4) << at for at in range(0, 64, width))


def other(rng):
    """A pair of any name but vqadd and vqsub."""
    sort = rng.randrange(5)
    if sort == 0:
        return end_pair(rng, rng.choice(HALVING))
    return (alike if sort < 3 else unlike)(rng, rng.randrange(1 << 20))


def pairs_and_file(rng, count):
    """Pairs that feed each other, where few registers are used, and a file of extreme or of small lanes.

    In half of them one saturating pair has sources at and around the ends of the range, unless a pair before sets them.
    """
    rng.registers = rng.choice([2, 4, 4, 8, 32])
    rng.first = 2 * rng.randrange((32 - rng.registers) // 2 + 1)
    of_four = rng.choice([0, 1, 2, 2, 3])
    names = [rng.choice(SATURATING) if rng.randrange(4) < of_four else None for _ in range(count)]
    pairs = [end_pair(rng, name) if name else other(rng) for name in names]
    words = rng.choice([word, small])
    file = [words(rng) for _ in range(32)]
    saturating = [k for k, name in enumerate(names) if name]
    if saturating and rng.randrange(2):
        k = rng.choice(saturating)
        put_around(rng, names[k], pairs[k], file)
    return pairs, file


def program(rng, k):
    """One program: in every fourth one pair is refused, sort by sort in turn; mostly they start at the first."""
    count = rng.choice([rng.randint(0, LONGEST), rng.randint(5, LONGEST), rng.randint(5, LONGEST)])
    pairs, file = pairs_and_file(rng, count)
    place, number = None, 0
    if pairs and k % 4 == 0:
        place = rng.randrange(count)
        pairs[place], number = REFUSED[k // 4 % len(REFUSED)]
    start = rng.choice([0] * 12 + [rng.randint(0, count)] * 3 + [count])
    stops = place is not None and start <= place
    reach = (place if stops else count) - start
    return Program(pairs, start, file, int(rng.randrange(3) == 0), number if stops else 0, reach)


def programs(count):
    rng = Chance(3)
    return [program(rng, k) for k in range(count)]


def of_saturating(all_of_them):
    """How many of the pairs that are executed are of vqadd and vqsub."""
    return sum(saturates(pair) for one in all_of_them for pair in one.ahead())
