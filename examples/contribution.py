#!/usr/bin/env python3
"""What the example `contribution` of both bindings prints: what is to be paid in month 480.

    contribution.py          writes contribution.expected beside this file
    contribution.py --check  says whether the file is what it would write

The first 479 months are those of career.txt, and the total that is wanted is
WANTED pounds. The contribution is the least double that brings the total there:
a total is the exact sum, a fraction, rounded once. It never falls when the last
amount grows, so the first double that does is found by halving; it is tried
beside its neighbour and a penny less, which both miss.
"""

import pathlib
import struct
import sys
from fractions import Fraction

HERE = pathlib.Path(__file__).resolve().parent
PAID = 479
WANTED = 60_000.0
PENNY = 0.01


def number(encoding):
    return struct.unpack('>d', encoding.to_bytes(8, 'big'))[0]


def hex_of(x):
    return struct.pack('>d', x).hex()


def at(rank):
    """The double so many places above zero, or below it."""
    return number(rank) if rank >= 0 else -number(-rank)


def total(paid, amount):
    return float(paid + Fraction(amount))  # to the nearest, ties to even


def least(paid, wanted):
    """The rank of the least double with which the total is not below the wanted one."""
    low = -0x7fefffffffffffff
    high = -low
    while low < high:
        middle = (low + high) // 2
        if total(paid, at(middle)) < wanted:
            low = middle + 1
        else:
            high = middle
    return low


def lines():
    months = [number(int(line, 16)) for line in (HERE / 'career.txt').read_text().split()]
    paid = sum(map(Fraction, months[:PAID]))
    rank = least(paid, WANTED)
    contribution, before = at(rank), at(rank - 1)
    assert total(paid, contribution) == WANTED and contribution > 0
    assert total(paid, before) < WANTED and total(paid, contribution - PENNY) < WANTED
    for name, amount in (('paid', total(paid, 0)), ('wanted', WANTED),
                         ('contribution', contribution)):
        yield f'{name} {hex_of(amount)} {amount:.2f}'
    for name, amount in (('it', contribution), ('the number before', before),
                         ('a penny less', contribution - PENNY)):
        result = total(paid, amount)
        met = 'reached' if result == WANTED else 'missed'
        yield f'with {name} {hex_of(result)} {result:.2f} {met}'


def main():
    text = ''.join(line + '\n' for line in lines())
    path = HERE / 'contribution.expected'
    if sys.argv[1:] == ['--check']:
        if path.read_text() != text:
            sys.exit('contribution.expected is not what contribution.py writes')
    else:
        path.write_text(text)


if __name__ == '__main__':
    main()
