#!/usr/bin/env python3
"""The totals of 268,435,456 rows, as many as a list may have.

    rows.py          writes rows.expected beside this file
    rows.py --check  says whether the file is what it would write

The rows are 131,072 amounts, 2,048 times over: pounds, of one to eight digits
in pence, of which about one in four is taken back. bindings/c/rows.c draws the
same amounts.

rows.expected has result, flags, passes and side of the sum, of the sum of
magnitudes, of that of squares, and of the dot product in which each amount
meets the next. They come from exact fractions: 2,048 times the total of the
amounts, rounded once.
"""

import pathlib
import struct
import sys
from fractions import Fraction

BLOCK, TIMES = 131_072, 2_048
EXPECTED = pathlib.Path(__file__).resolve().with_name('rows.expected')


def amounts():
    state = 28
    for _ in range(BLOCK):
        state = (state * 6364136223846793005 + 1442695040888963407) % 2 ** 64
        pence = (state >> 16) % 10 ** (1 + (state >> 61))
        yield (-pence if (state >> 59) % 4 == 0 else pence) / 100  # the nearest number


def line_of(name, terms):
    """A total over all rows. The terms are whole numbers, in units of 2^-2148."""
    exact = Fraction(TIMES * sum(terms), 2 ** 2148)
    result = float(exact)  # to the nearest, ties to even
    rounded = Fraction(result)
    flags = 0 if rounded == exact else 16 + (64 if abs(rounded) > abs(exact) else 0)
    side = 1 if rounded < exact else 2 if rounded > exact else 0
    # The highest bit of all lies less than 702 positions above the lowest, so the first pass drops
    # nothing and is the only one.
    assert exact != 0 and max(map(abs, terms)) < 2 ** 702 * min(t & -t for t in terms if t)
    return f'{name} {struct.pack(">d", result).hex()} {flags:02x} 1 {side}\n'


def main():
    units = [int(Fraction(x) * 2 ** 1074) for x in amounts()]
    text = (line_of('sum', [x << 1074 for x in units])
            + line_of('magnitude sum', [abs(x) << 1074 for x in units])
            + line_of('square sum', [x * x for x in units])
            + line_of('dot', [x * y for x, y in zip(units, units[1:] + units[:1])]))
    if sys.argv[1:] != ['--check']:
        EXPECTED.write_text(text)
    elif EXPECTED.read_text() != text:
        sys.exit('rows.expected is not what rows.py writes')


if __name__ == '__main__':
    main()
