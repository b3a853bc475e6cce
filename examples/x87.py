#!/usr/bin/env python3
"""The totals of six amounts in the x87's 80 bits, as bindings/c/x87.c prints them.

    x87.py          writes x87.expected beside this file
    x87.py --check  says whether the file is what it would write

Each amount is the number with 64 digits that is nearest to its decimal. The
totals come from exact fractions, rounded once; those that are added one after
the other are rounded at each step.
"""

import pathlib
import sys
from fractions import Fraction

AMOUNTS = ('412.35', '412.35', '1e25', '430.10', '-1e25', '0.01')
EXPECTED = pathlib.Path(__file__).resolve().with_name('x87.expected')


def rounded(exact):
    """The nearest number with 64 digits, a tie to the even one; no total is beyond its range."""
    if exact == 0:
        return exact
    unit = Fraction(1)
    while abs(exact) >= 2 ** 64 * unit:
        unit *= 2
    while abs(exact) < 2 ** 63 * unit:
        unit /= 2
    return round(exact / unit) * unit


def parts(number):
    """Head and significand."""
    significand, exponent = abs(number), 63
    while significand.denominator > 1 or significand < 2 ** 63:
        significand, exponent = 2 * significand, exponent - 1
    while significand >= 2 ** 64:
        significand, exponent = significand / 2, exponent + 1
    return (0x8000 if number < 0 else 0) + 16383 + exponent, int(significand)


def in_pence(number):
    pence = round(abs(number) * 100)  # a tie to the even one, as printf has it
    return f'{"-" if number < 0 else ""}{pence // 100}.{pence % 100:02}'


def line_of(name, exact):
    result = rounded(exact)
    flags = 0 if result == exact else 16 + (64 if abs(result) > abs(exact) else 0)
    side = 1 if result < exact else 2 if result > exact else 0
    head, significand = parts(result)
    return (f'{name} {head:04x} {significand:016x} flags {flags:02x} side {side} '
            f'{in_pence(result)}\n')


def added(amounts):
    total = Fraction(0)
    for amount in amounts:
        total = rounded(total + amount)
    return in_pence(total)


def main():
    amounts = [rounded(Fraction(text)) for text in AMOUNTS]
    text = (f'added one after the other: {added(amounts)}, and backwards: {added(amounts[::-1])}\n'
            + line_of('sum', sum(amounts))
            + line_of('sum backwards', sum(amounts[::-1]))
            + line_of('magnitude sum', sum(map(abs, amounts)))
            + line_of('square sum', sum(x * x for x in amounts))
            + line_of('dot', sum(x * y for x, y in zip(amounts, amounts[::-1]))))
    if sys.argv[1:] != ['--check']:
        EXPECTED.write_text(text)
    elif EXPECTED.read_text() != text:
        sys.exit('x87.expected is not what x87.py writes')


if __name__ == '__main__':
    main()
