#!/usr/bin/env python3
"""One career of 480 months, made up, what is printed of it, its years, and its statement.

    career.py          writes career.txt and career.expected, what the program `total` prints,
                       pages.expected and statement.expected beside this file
    career.py --check  says whether the four files are what it would write

A line of career.txt is the amount paid in one month, in pounds, as the 16 hex
digits of the nearest binary64 number. The amounts are monthly contributions
in pounds and pence, a share of a salary that grows; in some months less, where
an earlier payment is taken back; and in some with interest credited to a
hundredth of a penny.

career.expected has result, flags, passes and pence. They come from exact
fractions: the sum of the 480 numbers, rounded once, and a hundred times that
sum, not rounded before, to the nearest penny.

pages.expected has the total of each year's twelve months and of all, as hex
digits and in pounds: what the examples print that write the career as a page
and ask it for spans.

statement.expected has the total in binary64, binary32 and binary16, each the
exact sum rounded once: hex digits, flags, side and pounds.
"""

import pathlib
import struct
import sys
from fractions import Fraction

MONTHS = 480
HERE = pathlib.Path(__file__).resolve().parent


def draws(state):
    """Whole numbers from 0 to 999, the same on every machine."""
    while True:
        state = (state * 6364136223846793005 + 1442695040888963407) % 2 ** 64
        yield (state >> 33) % 1000


def amounts():
    """The amount of each month, in hundredths of a penny."""
    draw = draws(480)
    salary = 684_000  # pence a year
    paid = 0
    for month in range(MONTHS):
        year = month // 12
        if month and month % 12 == 0:
            rise = 100_000 + 15 * 100 + 4 * next(draw)  # 1.5 to 5.5 per cent
            if year in (4, 9, 15, 24):
                rise += 9_000  # a new post
            salary = salary * rise // 100_000
        rate = 50 if year < 10 else 65 if year < 25 else 80  # thousandths
        amount = 100 * (salary * rate // 12_000)
        if month % 41 == 40:
            amount = -100 * (500 + 7 * next(draw))  # an overpayment goes back
        elif month % 60 == 59:
            amount += paid * 7 // 4_800  # a month's interest at 1.75 per cent
        paid += amount
        yield amount


def hex_of(x):
    return struct.pack('>d', x).hex()


def nearest(numerator, denominator):
    """The fraction rounded to an integer, halves away from zero."""
    n = (2 * abs(numerator) + denominator) // (2 * denominator)
    return n if numerator >= 0 else -n


def pence(x):
    return nearest((100 * x).numerator, (100 * x).denominator)


def expected(months):
    exact = sum(map(Fraction, months))
    result = float(exact)  # to the nearest, ties to even
    rounded = Fraction(result)
    flags = 0 if rounded == exact else 16 + (64 if abs(rounded) > abs(exact) else 0)
    # The highest bit of all lies less than 702 positions above the lowest, so the first pass drops
    # nothing and is the only one.
    highest = max(map(abs, months))
    units = [Fraction(x) * 2 ** 1074 for x in months]
    lowest = min(int(u) & -int(u) for u in units)
    assert exact != 0 and Fraction(highest) * 2 ** 1074 < lowest * 2 ** 702
    return [hex_of(result), f'{flags:02x}', '1', str(pence(exact))]


def line_of(name, months):
    """A total: the exact sum of the months, rounded once."""
    result = float(sum(map(Fraction, months)))
    return f'{name} {hex_of(result)} {result:.2f}'


def years(months):
    for year in range(MONTHS // 12):
        yield line_of(f'year {year + 1:02}', months[12 * year:12 * year + 12])
    yield line_of('all', months)


def nearest_even(exact, digits):
    """The nearest number of so many digits, a tie to the even one."""
    unit = Fraction(1)
    while abs(exact) >= 2 ** digits * unit:
        unit *= 2
    while abs(exact) < 2 ** (digits - 1) * unit:
        unit /= 2
    return round(exact / unit) * unit


def statement(months):
    exact = sum(map(Fraction, months))
    for letter, width, digits in (('d', 64, 53), ('f', 32, 24), ('e', 16, 11)):
        result = nearest_even(exact, digits)
        # a number of the format, and not one below its least normal number: struct packs it as it
        # is
        encoding = struct.pack('>' + letter, result)
        assert Fraction(struct.unpack('>' + letter, encoding)[0]) == result and abs(result) >= 1
        flags = 0 if result == exact else 16 + (64 if abs(result) > abs(exact) else 0)
        side = 1 if result < exact else 2 if result > exact else 0
        yield f'binary{width} {encoding.hex()} flags {flags:02x} side {side} {float(result):.2f}'


def running(months):
    total = 0.0
    for x in months:
        total += x
    return total


def main():
    months = [float(Fraction(n, 10_000)) for n in amounts()]
    answer = expected(months)
    # What the example is for: three different totals, one of them right.
    assert len({hex_of(running(months)), hex_of(running(months[::-1])), answer[0]}) == 3
    same = True
    for name, lines in (('career.txt', map(hex_of, months)), ('career.expected', answer),
                        ('pages.expected', years(months)), ('statement.expected', statement(months))):
        text = ''.join(line + '\n' for line in lines)
        if sys.argv[1:] == ['--check']:
            if (HERE / name).read_text() != text:
                print(f'{name} is not what career.py writes')
                same = False
        else:
            (HERE / name).write_text(text)
    sys.exit(not same)


if __name__ == '__main__':
    main()
