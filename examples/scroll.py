#!/usr/bin/env python3
"""What the example `scroll` of both bindings prints: six amounts within 1, 2, 3 and 4 passes.

    scroll.py          writes scroll.expected beside this file
    scroll.py --check  says whether the file is what it would write

The chain of passes is run by docs/SPECIFICATION.md in whole numbers. Of an
unfinished answer the two numbers are the doubles around S and the boundary,
less and plus a unit of the last edge for each of the six, rounded down and up;
behind them stands the figure between, in pounds. The chain's last pass has the
total: the exact sum, rounded once.
"""

import pathlib
import struct
import sys
from fractions import Fraction

HERE = pathlib.Path(__file__).resolve().parent
AMOUNTS = [412.25, 1e300, 398.10, -1e300, 1e-300, 405.50]
DIGITS = 53


def hex_of(x):
    return struct.pack('>d', x).hex()


def position(x):
    """The position of the highest set bit of a fraction above 0, over a power of two."""
    return x.numerator.bit_length() - x.denominator.bit_length()


def passes(amounts):
    """Edge, S and boundary of each pass, one after the other."""
    terms = [Fraction(x) for x in amounts]
    boundary = Fraction(0)
    edge = max(position(abs(x)) for x in terms) - 702
    while True:
        unit = Fraction(2) ** edge
        parts = [int(x / unit) for x in terms]  # toward zero
        s = sum(parts) - int(boundary / unit)
        assert -2 ** 767 <= s < 2 ** 767
        yield edge, s, boundary
        lost = [position(abs(x)) if part == 0 else edge - 1
                for x, part in zip(terms, parts) if part * unit != x]
        n = abs(s).bit_length()
        if not lost or (boundary and n >= 66):
            return
        if not boundary and n >= DIGITS + 70:
            r = n - DIGITS - 1
            quotient, d = divmod(abs(s), 2 ** r)
            if 2 ** 65 <= d <= 2 ** r - 2 ** 65:
                return
            whole = quotient + (d > 2 ** r - 2 ** 65)
            boundary = whole * 2 ** r * unit * (1 if s > 0 else -1)
            edge -= 701
        else:
            edge = max(edge + n, max(lost) + 65) - 766


def down(x):
    """The greatest double that is not above a fraction."""
    near = float(x)  # to the nearest
    bits = struct.unpack('<q', struct.pack('<d', near))[0]
    if Fraction(near) <= x:
        return near
    return struct.unpack('<d', struct.pack('<q', bits - 1 if near > 0 else bits + 1))[0]


def lines():
    chain = list(passes(AMOUNTS))
    exact = sum(map(Fraction, AMOUNTS))
    for allowed, (edge, s, boundary) in enumerate(chain[:-1], 1):
        unit = Fraction(2) ** edge
        shown = s * unit + boundary
        margin = len(AMOUNTS) * unit
        assert abs(exact - shown) < margin
        lower, upper = down(shown - margin), -down(-(shown + margin))
        assert lower <= exact <= upper
        yield f'allowed {allowed}: {hex_of(lower)} to {hex_of(upper)}: {float(shown):.2f}'
    result = float(exact)
    flags = 0 if result == exact else 16 + (64 if abs(Fraction(result)) > abs(exact) else 0)
    for allowed in (len(chain), len(chain) + 1):
        yield (f'allowed {allowed}: {hex_of(result)} flags {flags:02x} passes {len(chain)}: '
               f'{result:.2f}')


def main():
    text = ''.join(line + '\n' for line in lines())
    path = HERE / 'scroll.expected'
    if sys.argv[1:] == ['--check']:
        if path.read_text() != text:
            sys.exit('scroll.expected is not what scroll.py writes')
    else:
        path.write_text(text)


if __name__ == '__main__':
    main()
