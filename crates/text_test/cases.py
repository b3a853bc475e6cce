#!/usr/bin/env python3
"""Makes the cases of text_test: inputs of the program `total` and the whole text that each must print.

    cases.py           writes stdin and stdout beside this file
    cases.py --check   says whether they are what it would write

stdin is the number of cases in 4 hex digits and a line end, then the cases. A case has 589 bytes: 512 of which
the first P, over and over, make the A bytes of input, 64 of which the first T are the text expected and the others 0, and a line AAAAA PPP TT in hex.
Behind the cases stands the negative control, laid out in the same way: cases whose text is wrong.

The expected texts follow docs/SPECIFICATION.md ("The program"). The sums of the good inputs are worked out in exact fractions, and so
are their pence, which are those of the exact sum; the few sums that are no finite numbers or none above zero, and the passes, are written out by hand
from the specification's table of careers and its rule of the passes.
"""

import math
import pathlib
import struct
import sys
from fractions import Fraction
from itertools import product

HERE = pathlib.Path(__file__).resolve().parent


def number(line):
    return struct.unpack('>d', bytes.fromhex(line))[0]


def pence(lines):
    """A hundred times the exact sum, rounded to an integer, halves away from zero; or none, where it is 2^63 or more or there is no sum."""
    if not all(math.isfinite(number(line)) for line in lines):
        return 'none'
    x = sum(Fraction(number(line)) for line in lines)
    n = int((200 * abs(x) + 1) // 2)
    return 'none' if n >= 2 ** 63 else str(n if x >= 0 else -n)


def is_subnormal(line):
    return 0 < int(line, 16) % 2 ** 63 < 2 ** 52


def summed(lines, passes):
    """The four lines for finite numbers whose sum is neither zero nor tiny nor too large."""
    exact = sum(Fraction(number(line)) for line in lines)
    result = float(exact)
    rounded = Fraction(result)
    flags = 0 if rounded == exact else 16 + (64 if abs(rounded) > abs(exact) else 0)
    flags += 128 * any(map(is_subnormal, lines))
    return f'{struct.pack(">d", result).hex()}\n{flags:02x}\n{passes}\n{pence(lines)}\n'


def text(lines, end='\n'):
    return '\n'.join(lines) + end


ONE, QUARTER, ZERO = '3ff0000000000000', '3fd0000000000000', '0000000000000000'
MINUS_ZERO, INFINITY, NAN = '8000000000000000', '7ff0000000000000', '7ff8000000000000'
EMPTY = f'{ZERO}\n00\n0\n0\n'


def hexed(x):
    return struct.pack('>d', x).hex()


def minus(line):
    return f'{int(line, 16) ^ 2 ** 63:016x}'


def good():
    """Name, times (or, from 10,000 on, bytes of input), piece, text expected."""
    yield 'one and a quarter', 1, text([ONE, QUARTER]), '3ff4000000000000\n00\n1\n125\n'
    yield 'no last line end', 1, text([ONE, QUARTER], ''), '3ff4000000000000\n00\n1\n125\n'
    yield 'empty input', 1, '', EMPTY
    yield 'minus zero', 1, text([MINUS_ZERO]), f'{MINUS_ZERO}\n00\n0\n0\n'
    yield 'infinity', 1, text([INFINITY, ONE]), f'{INFINITY}\n00\n0\nnone\n'
    yield 'infinities of both signs', 1, text([INFINITY, 'fff0000000000000']), f'{NAN}\n01\n0\nnone\n'
    yield 'quiet NaN', 1, text([ONE, NAN]), f'{NAN}\n00\n0\nnone\n'
    yield 'signaling NaN', 1, text(['7ff0000000000001']), '7ff8000000000001\n01\n0\nnone\n'
    yield 'C4', 1, text([ONE, hexed(-1.0)]), f'{ZERO}\n00\n1\n0\n'
    yield 'C5', 1, text([hexed(2.0 ** 1000), ONE, hexed(-2.0 ** 1000)]), f'{ONE}\n00\n2\n100\n'
    yield 'C6', 1, text([ONE, hexed(2.0 ** -53)]), f'{ONE}\n10\n1\n100\n'
    yield 'C7', 1, text([ONE, hexed(2.0 ** -53), hexed(2.0 ** -1000)]), '3ff0000000000001\n50\n2\n100\n'
    yield 'C8', 1, text(['7fefffffffffffff'] * 2), f'{INFINITY}\n54\n1\nnone\n'
    yield 'C10', 1, text(['0000000000000001']), '0000000000000001\na0\n1\n0\n'
    for x in (0.125, -0.125, 0.005, -0.005, 0.375, 12345.67, -9999.99, 2.675, 1e-3, 2.0 ** 56, 92233720368547758.0, -92233720368547758.0,
              92233720368547760.0, 92233720368547744.0, 1e17, -1e300):
        yield f'pence of {x}', 1, text([hexed(x)]), summed([hexed(x)], 1)
    for lines in ([hexed(0.1)] * 10, [hexed(x) for x in (0.1, 0.2, 0.3)], [hexed(1e16), ONE, hexed(-1e16), QUARTER]):
        yield 'a sum', 1, text(lines), summed(lines, 1)
    # a list whose rounded sum is 0.125 and has 13; what decides between 12 and 13 lies above or below, near or far, either way
    for x, sign in product((2.0 ** -60, 2.0 ** -500), (1, -1)):
        for lines in ([hexed(0.125), hexed(-x)], [hexed(0.125), hexed(x)]):
            lines = lines if sign > 0 else [minus(line) for line in lines]
            yield 'beside a half penny', 1, text(lines), summed(lines, 1)
    far = [hexed(0.125), hexed(-2.0 ** -1000)]
    yield 'a trace below the first pass', 1, text(far), summed(far, 2)
    for lines in ([hexed(-0.0625)] * 2, [hexed(-0.375), hexed(0.25)], [hexed(-1000.125)], [hexed(-0.005), hexed(2.0 ** -60)]):
        yield 'a negative half penny, or less', 1, text(lines), summed(lines, 1)
    for x in (-0.004, 0.004, -2.0 ** -1022):
        yield 'less than half a penny', 1, text([hexed(x)]), summed([hexed(x)], 1)
    yield '-2^-1074', 1, text(['8000000000000001']), '8000000000000001\na0\n1\n0\n'
    # two huge amounts that cancel are gone in the first pass, and 0.125 is met in the second; what is less than that by 2^-1074 in the third
    huge, largest = hexed(2.0 ** 1000), '7fefffffffffffff'
    for lines, passes in (([huge, hexed(0.125), minus(huge)], 2), ([minus(largest), largest, hexed(-0.125)], 2),
                          ([largest, largest, hexed(0.125), minus(largest), minus(largest)], 2),
                          ([huge, hexed(0.125), minus(huge), '8000000000000001'], 3), ([huge, hexed(-0.125), '0000000000000001', minus(huge)], 3)):
        yield 'huge amounts that cancel', 1, text(lines), summed(lines, passes)
    # 2^63 - 1 pence, whose rounded sum has 2^63 or more; and one step to 2^63
    for last, sign in product((9 / 128, 77 / 1024), (1, -1)):
        lines = [hexed(sign * x) for x in (92233720368547744.0, 14.0, last)]
        yield 'about 2^63 pence', 1, text(lines), summed(lines, 1)
    yield 'too many pence', 1, text([hexed(2.0 ** 56)] * 2), summed([hexed(2.0 ** 56)] * 2, 1)
    yield 'too many pence less too many', 1, text([hexed(2.0 ** 57), hexed(-2.0 ** 56)]), summed([hexed(2.0 ** 57), hexed(-2.0 ** 56)], 1)
    yield 'a half penny and an infinity', 1, text([hexed(0.125), 'fff0000000000000']), 'fff0000000000000\n00\n0\nnone\n'
    yield 'a NaN among what cancels', 1, text([huge, NAN, minus(huge)]), f'{NAN}\n00\n0\nnone\n'
    yield '8,192 lines', 8192, text([hexed(0.1)]), summed([hexed(0.1)] * 8192, 1)
    yield '8,192 lines without the last end', 139_263, text([hexed(0.1)]), summed([hexed(0.1)] * 8192, 1)


def bad():
    """Name, times (or, from 10,000 on, bytes of input), piece, number of the bad line."""
    yield 'a lone line end', 1, '\n', 1
    yield 'two line ends', 1, '\n\n', 1
    yield 'an empty line between', 1, text([ONE, '', QUARTER]), 2
    yield 'an empty line at the end', 1, text([ONE, QUARTER, '']), 3
    yield 'a capital digit', 1, text([ONE, '3FD0000000000000']), 2
    yield 'one capital, the last digit', 1, text(['3ff000000000000A']), 1
    yield 'carriage returns', 1, f'{ONE}\r\n{QUARTER}\r\n', 1
    yield 'a carriage return at the very end', 1, f'{ONE}\n{QUARTER}\r', 2
    yield 'a short line', 1, text([ONE, QUARTER[:15]]), 2
    yield 'a short line without its end', 1, text([ONE, QUARTER[:15]], ''), 2
    yield 'one digit', 1, '0', 1
    yield 'a long line', 1, text([ONE + '0', QUARTER]), 1
    yield 'a long line without its end', 1, ONE + '0', 1
    yield 'two numbers on a line', 1, text([ONE + ' ' + QUARTER]), 1
    yield 'two numbers without a space', 1, text([ONE + QUARTER]), 1
    yield 'a space in front', 1, text([' ' + ONE]), 1
    yield 'a space behind', 1, text([ONE + ' ']), 1
    yield 'a letter g', 1, text(['3fg0000000000000']), 1
    yield 'the byte below 0', 1, text(['3f/0000000000000']), 1
    yield 'the byte above 9', 1, text(['3f:0000000000000']), 1
    yield 'the byte below a', 1, text(['3f`0000000000000']), 1
    yield 'a prefix', 1, text(['0x3ff00000000000']), 1
    yield 'a sign', 1, text(['-3ff000000000000']), 1
    yield 'a byte 0', 1, f'{ONE}\n\0{ONE[:15]}\n', 2
    yield 'a byte above 127', 1, f'{ONE}\né{ONE[:14]}\n', 2
    yield 'decimal', 1, text(['1.25']), 1
    yield 'two bad lines: the first', 1, text([ONE, 'x', 'y']), 2
    yield '8,193 lines', 8193, text([ONE]), 8193
    yield '8,192 lines and one byte', 139_265, text([ONE]), 8193
    yield '8,193 lines without the last end', 139_280, text([ONE]), 8193
    yield 'a bad line within 8,193 lines', 5000, text([ONE, 'x']), 2


def changed(text, at):
    """The text with another digit at a place."""
    return text[:at] + '%x' % (int(text[at:at + 1], 16) ^ 1) + text[at + 1:]


def wrong(rows):
    """The first case with one digit of each line changed, and without its last byte; and the first refused one with another number."""
    name, times, piece, text = rows[0]
    ends = [at - 1 for at, byte in enumerate(text) if byte == 10]
    for spoilt in [changed(text.decode(), at).encode() for at in ends] + [text[:-1]]:
        yield name, times, piece, spoilt
    name, times, piece, text = next(row for row in rows if row[3].startswith(b'refused'))
    yield name, times, piece, changed(text.decode(), len(text) - 2).encode()


def cases():
    for name, times, piece, wanted in good():
        lines = (piece * times if times < 10_000 else (piece * (times // 17 + 1))[:times]).split()
        assert wanted.split()[3] == pence(lines), name
        yield name, times, piece.encode(), wanted.encode()
    for name, times, piece, line in bad():
        yield name, times, piece.encode(), f'refused line {line}\n'.encode()


def main():
    rows = list(cases())
    control = list(wrong(rows))
    stdin = b''
    for part in rows, control:
        stdin += f'{len(part):04x}\n'.encode()
        for name, times, piece, wanted in part:
            assert len(piece) <= 512 and len(wanted) <= 64, name
            size = times if times >= 10_000 else times * len(piece)
            assert size <= 139_281, name
            stdin += piece.ljust(512, b'.') + wanted.ljust(64, b'\0') + f'{size:05x} {len(piece):03x} {len(wanted):02x}\n'.encode()
    stdout = f'{len(rows)} of {len(rows)} agree\n{len(control)} of {len(control)} wrong texts told as wrong\n'
    files = {'stdin': stdin, 'stdout': stdout.encode()}
    same = True
    for name, data in files.items():
        if sys.argv[1:] == ['--check']:
            if (HERE / name).read_bytes() != data:
                print(f'{name} is not what cases.py writes')
                same = False
        else:
            (HERE / name).write_bytes(data)
    sys.exit(not same)


if __name__ == '__main__':
    main()
