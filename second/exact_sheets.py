#!/usr/bin/env python3
"""Laboratory sheets with their answers, by rational arithmetic (request E6).

    python3 second/exact_sheets.py > second/data/sheets.txt
    python3 second/exact_sheets.py --seed 7 --random 100000 > FILE

It knows nothing of the two implementations: a float is what struct makes of its four
bytes, and its count the floor of a fraction. A row is

    KIND:BITS, thirteen times | REFUSAL | TOLD, four | COUNTS, thirteen

with the bits in hexadecimal, and all numbers as they are on a fresh record: what is told
and counted is zeros where there is a refusal. Rows that begin with # say what follows.
"""

import argparse
import math
import struct
from fractions import Fraction

MEASURED, BELOW, NOT_SAMPLED = 0, 1, 2
COLUMNS = range(13)
TICKS = range(8, 12)
SALK = 12

# The patterns of infinities and of what is no number, quiet and signalling, of both signs.
INFINITIES = [0x7F800000, 0xFF800000]
QUIET = [0x7FC00000, 0xFFC00000, 0x7FFFFFFF, 0xFFFFFFFF, 0x7FD5AA55]
SIGNALLING = [0x7F800001, 0xFF800001, 0x7FBFFFFF, 0xFFBFFFFF, 0x7FA00000]


def number(pattern):
    """The float of this pattern; Python has it as a double, which is exact."""
    return struct.unpack("<f", struct.pack("<I", pattern))[0]


def pattern(value):
    """The pattern of the float nearest to this number."""
    return struct.unpack("<I", struct.pack("<f", value))[0]


# Negative floats: the smallest, an ordinary one, the greatest, one far below every ceiling, and
# one that is less than a count away from zero.
NEGATIVES = [0x80000001, pattern(-1.0), 0xFF7FFFFF, pattern(-1e10), pattern(-0.0001)]

# ---- The answer to a sheet ----


def counted(column, bits):
    """The refusal of an amount in this column, 0 where there is none, and its count."""
    value = number(bits)
    if math.isnan(value) or math.isinf(value) or value < 0:
        return 13, 0
    scale, ceiling = (10**7, 10**16) if column in TICKS else (10**3, 10**12)
    count = math.floor(Fraction(value) * scale)
    return (14, 0) if count > ceiling else (0, count)


def answer(sheet):
    """The refusal of a sheet on a fresh record, what it tells, and what the sludge holds then."""
    told, counts = [0] * 4, [0] * 13
    for column, (kind, bits) in enumerate(sheet):
        if kind == NOT_SAMPLED:
            told[3] += 1
            continue
        refusal, count = counted(column, bits) if kind in (MEASURED, BELOW) else (13, 0)
        if refusal != 0:
            return refusal, [0] * 4, [0] * 13
        if kind == MEASURED:
            counts[column] = count
        else:
            told[1 if column in TICKS else 2 if column == SALK else 0] += count
    return 0, told, counts


def row(sheet):
    """A sheet and its answer as a row."""
    refusal, told, counts = answer(sheet)
    entries = " ".join(f"{kind}:{bits:08x}" for kind, bits in sheet)
    return f"{entries} | {refusal} | {' '.join(map(str, told))} | {' '.join(map(str, counts))}"


# ---- Fixed sheets ----

# A quarter gram, for entries that are beside the point.
FAIR = (MEASURED, pattern(0.25))


def every(kind, bits):
    """A sheet whose entries are all this one."""
    return [(kind, bits) for _ in COLUMNS]


def only(entries):
    """A sheet with these entries in their columns, a quarter gram in the others."""
    return [entries.get(column, FAIR) for column in COLUMNS]


def beside(bits):
    """A positive float and its two neighbours."""
    return [bits - 1, bits, bits + 1]


def small():
    """Nothing, next to nothing, and the least that counts."""
    yield "zero and minus zero, as values and as limits"
    for bits in [0, 0x80000000]:
        yield every(MEASURED, bits)
        yield every(BELOW, bits)
    yield "the smallest and the greatest subnormal, and the smallest normal float"
    for bits in [1, 0x007FFFFF, 0x00800000]:
        yield every(MEASURED, bits)
        yield every(BELOW, bits)
    yield "0.001 and 10^-7 with their neighbours: 0 and 1 at the two scales"
    for value in [0.001, 1e-7]:
        for bits in beside(pattern(value)):
            yield every(MEASURED, bits)
            yield every(BELOW, bits)


def ordinary():
    """Amounts as a laboratory has them."""
    yield "an influent: all measured, all below their limits, and some of each"
    influent = [30.0, 69.5, 51.2, 202.32, 28.17, 0.05, 0.7, 0.009, 0.003, 31.56, 6.95, 10.59, 7.0]
    for kinds in ["0000000000000", "1111111111111", "0101010101010", "1010101010101",
                  "0120120120120", "2010201020102", "0000000222221"]:
        yield [(int(kind), pattern(value)) for kind, value in zip(kinds, influent)]
    yield "decimals that no float holds: some count as one less than they look"
    for value in [0.009, 0.7, 0.57, 1.001, 4.35, 3e-7, 1e-6, 16777.217, 123456.789, 0.0010001]:
        yield every(MEASURED, pattern(value))
    yield "whole counts, at k/8 g and k/128 g, with their neighbours"
    for value in [0.125, 0.0078125, 1.0, 8192.375, 65535.9921875, 1000.0]:
        for bits in beside(pattern(value)):
            yield every(MEASURED, bits)


def great():
    """The ceilings, a million kilograms in every column."""
    yield "10^9 and the float before it"
    for bits in [pattern(1e9), pattern(1e9) - 1]:
        yield every(MEASURED, bits)
        yield every(BELOW, bits)
    yield "the float behind 10^9, in each column"
    for column in COLUMNS:
        for kind in [MEASURED, BELOW]:
            yield only({column: (kind, pattern(1e9) + 1)})
    yield "far above: multiples of 2^64 in counts, other powers of two, and the greatest float"
    for bits in [pattern(2.0**power) for power in [57, 61, 30, 64, 96, 127]] + [0x7F7FFFFF]:
        yield only({6: (MEASURED, bits)})
        yield only({10: (BELOW, bits)})


def bad():
    """Entries that are turned away by 13, and what is not read."""
    yield "infinite, no number, negative: as values, as limits, and beside entries not sampled"
    for place, bits in enumerate(INFINITIES + QUIET + SIGNALLING + NEGATIVES):
        yield only({place % 13: (MEASURED, bits)})
        yield only({(place + 5) % 13: (BELOW, bits)})
        yield only({place % 13: (NOT_SAMPLED, bits), 12 - place % 13: (NOT_SAMPLED, 0)})
    yield "nothing sampled"
    for bits in [0, 0x7F800001, 0xFFFFFFFF]:
        yield every(NOT_SAMPLED, bits)
    yield "kinds that there are not"
    for place, kind in enumerate([3, 4, 128, 129, 130, 255]):
        yield only({2 * place: (kind, 0)})
        yield only({2 * place + 1: (kind, 0x7F800001)})


def pairs():
    """Two bad columns: the first decides."""
    yield "13 and 14 in two columns, in both orders"
    above, none = pattern(2e9), 0x7FC00000
    for first, second in [(0, 1), (0, 12), (3, 9), (7, 8), (8, 11), (11, 12)]:
        for kind, other in [(MEASURED, MEASURED), (BELOW, MEASURED), (MEASURED, BELOW)]:
            yield only({first: (kind, none), second: (other, above)})
            yield only({first: (kind, above), second: (other, none)})
        yield only({first: (3, 0), second: (MEASURED, above)})
        yield only({first: (MEASURED, above), second: (3, 0)})


# ---- Sheets by a seed ----


class Stream:
    """Numbers that a seed determines (splitmix64), the same in every version of Python."""

    def __init__(self, seed):
        self.state = seed

    def below(self, bound):
        """The next number, below this bound."""
        mask = 2**64 - 1
        self.state = (self.state + 0x9E3779B97F4A7C15) & mask
        mixed = self.state
        mixed = ((mixed ^ (mixed >> 30)) * 0xBF58476D1CE4E5B9) & mask
        mixed = ((mixed ^ (mixed >> 27)) * 0x94D049BB133111EB) & mask
        return (mixed ^ (mixed >> 31)) * bound >> 64

    def one_of(self, choices):
        """One of these."""
        return choices[self.below(len(choices))]


def any_fair(stream):
    """A pattern below that of 10^9: of any exponent, or of one that is likely to count."""
    first = stream.one_of([0, 100, 110, 120])
    bits = first * 2**23 + stream.below((157 - first) * 2**23)
    return min(bits, pattern(1e9))


def any_bad(stream):
    """An entry that is likely to be turned away."""
    bits = stream.one_of([
        stream.below(2**32),
        pattern(1e9) + stream.below(100),
        pattern(1e9) + stream.below(0x7F800000 - pattern(1e9)),
        0x80000000 + stream.below(0x7F800000),
        stream.one_of([0x7F800000, 0xFF800000]) + stream.below(2**23),
    ])
    return (stream.one_of([MEASURED, MEASURED, BELOW, BELOW, stream.below(256)]), bits)


def by_seed(stream):
    """A sheet: fair, or with one bad entry or a few."""
    kinds = stream.one_of([[0], [0, 0, 0, 1, 2], [0, 1], [1], [0, 1, 2]])
    sheet = [(stream.one_of(kinds), any_fair(stream)) for _ in COLUMNS]
    sheet = [(k, stream.below(2**32) if k == NOT_SAMPLED else bits) for k, bits in sheet]
    for _ in range(stream.one_of([0, 0, 0, 0, 1, 1, 2, 3])):
        sheet[stream.below(13)] = any_bad(stream)
    return sheet


def main():
    """Prints the fixed sheets and those of the seed."""
    options = argparse.ArgumentParser(description="Prints sheets with their answers.")
    options.add_argument("--seed", type=int, default=6)
    options.add_argument("--random", type=int, default=120, help="how many of the seed")
    options = options.parse_args()
    print("# Laboratory sheets and their answers; second/exact_sheets.py prints this file.")
    for group in [small, ordinary, great, bad, pairs]:
        for item in group():
            print("# " + item if isinstance(item, str) else row(item))
    print(f"# by seed {options.seed}, over all exponents")
    stream = Stream(options.seed)
    for _ in range(options.random):
        print(row(by_seed(stream)))


if __name__ == "__main__":
    main()
