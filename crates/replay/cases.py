#!/usr/bin/env python3
"""The cases of the program `replay`, in sections, and the files `stdin` and `stdout` beside this one.

    cases.py write --oracle BINARY        makes both files: result and flags from the Rust oracle, all else from model.py
    cases.py check                        works every row of `stdin` out by model.py alone, and compares
    cases.py cover                        prints what the sections reach
    cases.py draw --oracle BINARY SEED N  compares model.py with the oracle on N more cases, drawn at random

README.md says where the answers come from and how the oracle is asked.

`stdin` begins with the number of sections, two hex digits and a line end.
A section begins with a line of its name, filled with dots to 44 bytes, a
letter for the length of its rows, and the number of its rows in four hex
digits. A row has 283 bytes, the line end among them (letter r), or 487 where
dots have more than six pairs (letter l), or 301 where it names a bias (letter
b). Every number is in hex:

column  0      s a sum, d a dot
        2      kind
        4      E, two digits
        7      W, two digits
       10      rounding, tininess, NaN propagation, default NaN sign, flush to
               zero, denormals are zero, saturate: one digit each
       18      precision, two digits
       21      summand
       23      number of values of a sum; of the left and of the right list of
               a dot
       26      bytes that the byte calls get behind the values (0 to 7): of
               the left, of the right list
       29      length of the buffer lent to a byte entry, two digits
       32      result, 16 digits
       49      flags, two digits
       52      passes, six digits
       59      last edge: a sign and eight digits
       69      refusal
       71      place
       73      what the byte entry returns, three digits
       77      side: 0 where the result is the exact sum, 1 where it is less, 2
               where it is more, 3 where it is not compared
       79      twelve values, 16 digits each: a sum's from the first on; a
               dot's left list from the first on, its right one from the
               seventh on. A long row has twenty-four, and there a dot's
               right list begins with the thirteenth
      283      in a row that names one, which has twelve values: the bias, a
               sign and 16 digits

Behind the sections stand the rows of the pence of one encoding, their number first, four hex digits and a line end. Such a row has 49 bytes:

column  0      p
        2      kind, E, W, as above
       10      the encoding, 16 digits
       27      the figure: a sign and 16 digits
       45      refusal and place

Behind these stand the rows of pence that name a bias, their number first in the same way. Such a row has 67 bytes, the first 48 of them as above:

column 49      the bias: a sign and 16 digits

Then come the rows of the pence of lists, without and with a named bias, each part with its number first. Such a row is as long as that of a sum, and has
its format, its values and its bias where that has them:

column  0      p
        2      kind, E, W, as above
       10      number of values
       12      the figure: a sign and 16 digits
       30      refusal and place
       34      a note of what the list is, 44 bytes
       79      twelve values, 16 digits each
      283      the bias, in a row that names one

Then come the rows of tables, without and with a named bias, each part with its number first. Such a row has 487 or 505 bytes, with the format, the
settings, the length of the buffer and the record that is expected of all cells where a sum's row has them; and else:

column  0      t
       21      number of cells
       23      lengths of the lists that are lent for the totals: of the rows, of the columns
       79      twelve cells, 16 digits each, as are all that follow
      283      rows, columns
      317      ten totals that are expected: of the rows, and behind them of the columns
      487      the bias, in a row that names one

Behind the tables stand the rows of amounts known within a range, their number first. Such a row has 487 bytes:

column  0      r
        2      lengths of the lists: of the tags, of the first and of the second figures
        6      length of the list that is lent for the pair
        8      refusal, two digits
       11      what the entry returns, two digits
       14      ceiling, lower total, upper total, 16 digits each
       65      six tags, a digit each: itself up to 2, and else one of the greater tags in the list TAGS
       79      six first figures, 16 digits each, as are all that follow
      181      six second figures
      283      what an accepted call leaves in the place of the first figures: six lows
      385      and of the second ones: six highs

Behind the ranges stand the rows of spans of career pages, first those with pages of up to 208 bytes and then longer ones, each part with its number first.
Such a row has 530 or 2,306 bytes, with the settings, the summand, the length of the buffer and the record that is expected where a sum's row has them; and
else:

column  0      g
        2      length of the page in bytes, three digits
        6      the place of the page in its buffer, 0 to 7
       79      start, end, 16 digits each
      113      the page, two digits for each byte

Then come the rows of pages that are written, again in two parts. Such a row has 791 or 4,279 bytes:

column  0      w
        2      number of values, two digits
        5      length of the destination in bytes, three digits
        9      the place of the destination in its buffer, 0 to 7
       11      the first byte of the buffer before the call, two digits; each of the others is one more than the byte before it, modulo 256
       14      what the entry returns, six digits
       21      the values, 16 digits each, and a space; then the destination after the call, two digits for each byte

Then come the rows of values of ten bytes, their number first. Such a row has 496 bytes, with the format, the settings, the summand and the length of the
buffer where a sum's row has them; and else:

column  0      s a sum, d a dot
       23      length of a sum's list, or of a dot's left one, in bytes, two digits
       26      length of a dot's right list in bytes, two digits
       32      1 where a bias is named, else 0
       34      the bias: a sign and 16 digits
       52      a note of what the row is, 20 bytes
       73      what the byte entry returns, three digits
       77      forty bytes of buffer before the call, two digits each, of which the entry is lent as many as the row says
      158      the same after the call
      239      128 bytes, two digits each: a sum's list from the first on; a dot's left list from the first on, its right one from the 65th on

Then come the rows of one total in several formats, their number first. Such a row has 1,371 bytes:

column  0      i
        2      kind, E, W of the list, as above
       10      1 where the list's format names its bias, 0 where it does not, or another digit
       12      that bias: a sign and 16 digits
       30      the list's denormals-are-zero
       32      bytes that are lent of the targets, three digits
       36      bytes that are lent of the values, two digits
       39      bytes that are lent of the buffer, two digits
       42      what the entry returns
       44      a note of what the row is, 24 bytes
       69      three targets, thirteen numbers of 16 digits each: kind, E, W, whether it names its bias, the bias (below 0 in two's complement), and the
               eight settings in the order of a sum's row
      732      thirteen values, 16 digits each
      953      104 bytes of buffer before the call, two digits each
     1162      the same after the call

Then come the rows of totals within an allowance of passes, their number first. Such a row has 1,112 bytes, with the format, the settings and the summand
where a sum's row has them; and else:

column  0      s a sum, d a dot
       23      bytes that are lent of a sum's list, or of a dot's left one, two digits
       26      bytes that are lent of a dot's right list, two digits
       29      bytes that are lent of the buffer, two digits
       32      1 where the format names its bias, 0 where it does not, or another digit
       34      that bias: a sign and 16 digits
       52      a note of what the row is, 20 bytes
       73      what the entry returns, three digits
       77      the allowance, 16 digits
       94      152 bytes of buffer before the call, two digits each
      399      the same after the call
      704      24 values, 16 digits each: a sum's list, or a dot's left one, from the first on; a dot's right list from the thirteenth on

At last come the rows of contributions, their number first. Such a row has 383 bytes, with the format and the settings where a sum's row has them; and else:

column  0      c
       21      refusal of the functions, which have no buffer; nothing is asked of them where the format is misnamed
       23      number of values, two digits
       26      bytes that the byte call gets behind the values (0 to 7), two digits
       29      bytes that are lent of the buffer, two digits
       32      1 where the format names its bias, 0 where it does not, or another digit
       34      that bias: a sign and 16 digits
       52      a note of what the row is, 20 bytes
       73      what the entry returns, three digits
       77      place
       79      wanted total, 16 digits
       96      number found, 16 digits
      113      sixteen bytes of buffer before the call, two digits each
      146      the same after the call
      179      twelve values, 16 digits each

Behind all these stand the rows of the negative control: for each way of working a kind of row out their number and the rows, each the kind's first
accepted one with one digit of the answer changed (CONTROLS).
"""

import os
import subprocess
import sys
from itertools import combinations, permutations, product

sys.dont_write_bytecode = True
from model import *

HERE = os.path.dirname(os.path.abspath(__file__))
NAME = 44
VALUES, LONG = 12, 24
HEAD, BIAS, TABLE = 79, 283, 487
MOST_TOTALS = 10


class Draw:
    """Random numbers of a fixed seed (splitmix64), the same in every version of Python."""

    def __init__(self, seed):
        self.state = seed

    def bits(self, n):
        self.state = (self.state + 0x9e3779b97f4a7c15) % 2 ** 64
        z = self.state
        z = (z ^ z >> 30) * 0xbf58476d1ce4e5b9 % 2 ** 64
        z = (z ^ z >> 27) * 0x94d049bb133111eb % 2 ** 64
        return (z ^ z >> 31) >> 64 - n

    def below(self, n):
        return self.bits(64) * n >> 64

    def between(self, a, b):
        return a + self.below(b - a + 1)

    def choice(self, these):
        return these[self.below(len(these))]

    def chance(self, percent):
        return self.below(100) < percent

    def shuffled(self, these):
        these = list(these)
        for i in range(len(these) - 1, 0, -1):
            j = self.below(i + 1)
            these[i], these[j] = these[j], these[i]
        return these


# ---- a case

def signed(n, digits):
    """A sign, and hex digits."""
    return '%s%0*x' % ('-' if n < 0 else '+', digits, abs(n))


class Case:
    """A call, and what it answers. A right list makes it a dot."""

    def __init__(self, f, c, left, right=None, summand=VALUE, more=(0, 0), room=32):
        self.kind, self.e, self.w, self.named = (*f, None)[:4] if isinstance(f, tuple) else (f.kind, f.e, f.w, f.named)
        self.c, self.left, self.right, self.summand = {**PLAIN, **c}, left, right, summand
        self.more, self.room = more, room
        # the byte entries read kind 4 by tens
        sizes = (10, 32) if self.kind == 4 else (8, 24)
        self.holds = conditions(self.kind, self.e, self.w, self.named, self.c, summand, left, right, more, room, *sizes)
        self.refusal = min([n for n in self.holds if n > 2], default=0)
        self.place = 0
        if self.refusal == 7:
            self.place = (stray(self.w, left) + stray(self.w, right or []))[0]
        lowest = min(self.holds, default=0)
        self.returned = lowest + 256 * self.place * (lowest == 7)
        if self.refusal:
            record = Record(0, 0)
        elif right is None:
            record = sum_record(self.format(), self.c, summand, left)
        else:
            record = dot_record(self.format(), self.c, left, right)
        self.result, self.flags, self.passes, self.edge = record.result, record.flags, record.passes, record.edge
        self.leans, self.end, self.side, self.below_zero = record.leans, record.end, record.side, record.negative

    def format(self):
        return Format(self.kind, self.e, self.w, self.named)

    def answer(self):
        """The fields from the result on to the side."""
        return '%016x %02x %06x %s %x %x %03x %x' % (
            self.result, self.flags, self.passes, signed(self.edge, 8), self.refusal, self.place, self.returned, self.leans)

    def row(self, most=VALUES):
        """A row of so many values."""
        dot = self.right is not None
        values = (self.left + [0] * most)[:most // 2] + self.right if dot else self.left
        assert len(values) <= most and len(self.left) <= (most // 2 if dot else VALUES)
        head = '%s %x %02x %02x %s %02x %x %x%x %x%x %02x' % (
            'd' if dot else 's', self.kind, self.e, self.w, ''.join('%x' % self.c[name] for name in SETTINGS[:7]),
            self.c['precision'], self.summand, len(self.left), len(self.right or []), *self.more, self.room)
        text = ' '.join([head, self.answer()] + ['%016x' % v for v in values + [0] * (most - len(values))])
        assert len(text) == HEAD + 17 * most - 1
        if self.named is not None:
            assert most == VALUES
            text += ' ' + signed(self.named, 16)
        return text + '\n'

    def line(self):
        """The case as the oracle reads it."""
        head = [('sum' if self.right is None else 'dot') + '_biased' * (self.named is not None), self.kind, self.e, self.w]
        head += [] if self.named is None else [self.named]
        head += [self.c[name] for name in SETTINGS] + [self.summand, len(self.left)]
        return ' '.join([str(h) for h in head] + ['%x' % v for v in self.left + (self.right or [])])

    def is_product(self):
        return self.right is not None or self.summand == SQUARE

    def has_nan(self):
        return any(self.format().decode(v)[0] == 'nan' for v in self.left + (self.right or []))


def case_of(row, most, biased):
    """The call of a row of so many values, with the model's answer."""
    number = lambda at, digits: int(row[at:at + digits], 16)
    c = {name: number(10 + i, 1) for i, name in enumerate(SETTINGS[:7])}
    c['precision'] = number(18, 2)
    values = [number(at, 16) for at in range(HEAD, HEAD + 17 * most, 17)]
    n, m, half = number(23, 1), number(24, 1), most // 2
    right = values[half:half + m] if row[0] == 'd' else None
    f = number(2, 1), number(4, 2), number(7, 2), number(BIAS, 17) if biased else None
    return Case(f, c, values[:n], right, number(21, 1), (number(26, 1), number(27, 1)), number(29, 2))


# ---- numbers and formats

DOUBLE = Format(IEEE, 11, 64)
# seven pairs of E and W: prime to the numbers of modes, signs, kinds and sides, so that a running index pairs each with each
PAIRS = ((4, 8), (5, 16), (8, 32), (11, 64), (5, 8), (3, 16), (8, 16))
# pairs whose exponents reach past a window of 768 bits, eleven of them
FAR = ((11, 64), (11, 33), (15, 64), (12, 64), (11, 13), (28, 64), (15, 41), (20, 53), (13, 15), (11, 24), (14, 16))
WIDE = [(0, 11, 64), (0, 11, 64), (1, 11, 64), (2, 11, 64), (3, 11, 64), (0, 15, 64), (0, 12, 14), (3, 12, 64), (2, 20, 64), (0, 28, 64),
        (1, 15, 47)]


def widths(e):
    """The widths of the oracle's standard formats with E exponent bits."""
    some = {w for w in (17, 18, 19, 21, 24, 27, 31, 32, 33, 37, 41, 47, 53, 59, 61, 63) if e in (2, 3, 5, 8, 11, 15, 20, 24, 28) and w >= e + 2}
    return sorted({e + 2, 64} | set(range(e + 2, 17)) | some)


def power(f, n, negative=0, rest=0):
    """The number of the exponent n and these fraction bits, or of the nearest exponent that there is."""
    return f.normal(negative, min(max(n + f.bias, 1), f.ones - 1), rest)


def flipped(f, values, negative=1):
    return [v ^ f.sign * negative for v in values]


# ---- C1 to C12

def careers():
    minus, big = 1 << 63, 0x7fefffffffffffff
    at = lambda n: power(DOUBLE, n)
    rows = [
        ([], VALUE, DOWN, 0, 0x00, 0, 0),
        ([minus], VALUE, EVEN, minus, 0x00, 0, 0),
        ([0, minus], VALUE, DOWN, minus, 0x00, 0, 0),
        ([at(0), minus + at(0)], VALUE, EVEN, 0, 0x00, 1, -702),
        ([at(1000), at(0), minus + at(1000)], VALUE, EVEN, 0x3ff0000000000000, 0x00, 2, None),
        ([at(0), at(-53)], VALUE, EVEN, 0x3ff0000000000000, 0x10, 1, -702),
        ([at(0), at(-53), at(-1000)], VALUE, EVEN, 0x3ff0000000000001, 0x50, 2, -1403),
        ([big, big], VALUE, EVEN, 0x7ff0000000000000, 0x54, 1, 1023 - 702),
        ([big, big], VALUE, TO_ZERO, big, 0x14, 1, 1023 - 702),
        ([1], VALUE, EVEN, 1, 0xa0, 1, -1074 - 702),
        ([at(-600)], SQUARE, EVEN, 0, 0x38, 1, -1199 - 702),
        ([0xfff0000000000000, 0x7ff8000000000000], MAGNITUDE, EVEN, 0x7ff0000000000000, 0x00, 0, 0),
    ]
    cases = []
    sides = (0, 0, 0, 0, 0, 1, 2, 3, 1, 0, 1, 3)
    for (values, summand, mode, result, flags, passes, edge), side in zip(rows, sides, strict=True):
        case = Case(DOUBLE, {'rounding': mode}, values, summand=summand)
        assert (case.result, case.flags, case.passes, case.leans) == (result, flags, passes, side)
        assert edge is None or case.edge == edge
        cases.append(case)
    return cases


# ---- the rounding

def roundings():
    """Every rounding, sign and side of a tie, in every kind: a number and less than half a unit of its last place, half of it beside an
    even and beside an odd number, and more than half."""
    cases = []
    for kind, mode, negative, side in product(range(4), range(8), range(2), ('below', 'on', 'on odd', 'above')):
        i = len(cases)
        f = Format(kind, *PAIRS[i % 7])
        t = 3
        odd = side == 'on odd' or side != 'on' and i // 4 % 2
        m = (1 << f.fraction) + (i * 2654435761 % (1 << f.fraction) & ~1) + odd
        half = [f.number(negative, 7, t - f.p - 3)] if side == 'below' else [f.number(negative, 1, t - f.p)]
        more = [f.number(negative, 1, t - f.p - 3)] if side == 'above' else []
        values = [f.number(negative, m, t - f.fraction)] + half + more
        c = {'rounding': mode, 'tininess': i % 2}
        if i % 3 == 0:
            case = Case(f, c, values)
        elif i % 3 == 1:
            factor = power(f, (-1, 0, 0)[i // 3 % 3], (0, 1, 0)[i // 3 % 3])
            case = Case(f, c, flipped(f, values, factor >> f.w - 1), [factor] * len(values))
        elif negative:
            case = Case(f, c, values[::-1])
        else:
            case = Case(f, c, [v ^ f.sign * (j % 2) for j, v in enumerate(values)], None, MAGNITUDE)
        assert (case.side, case.below_zero) == (side, negative)
        cases.append(case)
    return cases


def boundaries():
    """A sum so close to a number, or to the middle between two, that the first pass cannot tell on which side it lies: below the boundary, on
    it and above it, in every mode and of either sign, over a list and over pairs."""
    cases = []
    for mode, negative, middle, side, dot in product(range(8), range(2), range(2), ('below', 'on', 'above'), range(2)):
        i = len(cases)
        f = Format(i // 5 % 4, *FAR[i % 11])
        t = i % 13
        edge = t - 702 + dot
        values = [power(f, t, negative, i // 2 % 2)] + [power(f, t - f.p, negative)] * middle
        # within 2^65 units of the first pass, and below its edge
        near, far = power(f, edge + 3 + 4 * (i % 13), negative), power(f, edge - 67 - i, negative)
        if side == 'on':
            values += [far, far ^ f.sign] + [near, near ^ f.sign] * (i // 2 % 2)
        else:
            below = f.sign * (side == 'below')
            values += [near ^ below, far ^ f.sign * (i // 5 % 2)] if i // 3 % 2 else [far ^ below]
        right = [power(f, 0, negative)] * len(values) if dot else None
        case = Case(f, {'rounding': mode, 'tininess': i % 2}, flipped(f, values, negative * dot), right)
        assert (case.end, case.passes > 1, case.below_zero) == (side, True, negative)
        cases.append(case)
    return cases


# ---- the passes

def margins():
    """Sums of binary64 that meet a number of the passes' rules exactly, or miss it by one."""
    at = lambda *terms: [power(DOUBLE, e, int(sign < 0), *rest) for sign, e, *rest in terms]
    lists = [
        # the first window's unit is 2^-702, the spacing of ties 2^-53; 2^65 units are 2^-637
        at((1, 0), (1, -637), (1, -1000)),
        at((1, 0), (1, -637), (-1, -702), (1, -1000)),
        at((1, 0), (1, -637), (1, -702), (1, -1000)),
        at((1, 0), (1, -638), (1, -1000)),
        at((1, 0), (1, -53), (-1, -637), (1, -1000)),
        at((1, 0), (1, -53), (-1, -637), (1, -702), (-1, -1000)),
        at((1, 0), (1, -53), (-1, -637), (-1, -702), (1, -1000)),
        at((1, 0), (1, -53), (-1, -638), (-1, -1000)),
        at((1, 0), (-1, -702), (1, -1000)),
        at((1, 0), (1, -53), (1, -702), (-1, -1000)),
        at((1, 0), (1, -702)),
        at((1, 0), (1, -703)),
        at((1, 0), (1, -702), (1, -703)),
        # what is left of the first window has 123 digits, p + 70, or one less
        at((1, 0), (-1, 0), (1, -580), (1, -1000)),
        at((1, 0), (-1, 0), (1, -581), (1, -1000)),
        at((1, 0), (-1, 0), (1, -580), (1, -634), (1, -1000)),
        at((1, 0), (-1, 0), (1, -580), (1, -637), (-1, -1000)),
        at((1, 0), (-1, 0), (1, -580), (1, -638), (-1, -1000)),
        # 66 digits decide about a boundary, 65 do not
        at((1, 1000), (1, -338), (1, -900)),
        at((1, 1000), (1, -339), (1, -900)),
        at((1, 1000), (1, -338), (-1, -403), (1, -900)),
        at((1, 1000), (1, 947), (-1, -338), (-1, -900)),
        at((1, 1000), (1, 947), (-1, -339), (-1, -900)),
        # 766 down, counted from a lost bit and 65 or from what is left
        at((1, 1000), (-1, 1000), (1, 297), (1, -600)),
        at((1, 1000), (-1, 1000), (1, 363), (1, 297), (1, -600)),
        at((1, 1000), (-1, 1000), (1, 364), (1, 297), (1, -600)),
        at((1, 1000), (-1, 1000), (1, 233), (1, -467), (1, -600)),
        at((1, 1000), (-1, 1000), (1, 200), (-1, 200), (1, -467), (1, -700)),
        # a term that reaches the edge drops its lowest bit
        at((1, 1000), (-1, 1000), (1, 298, 1)),
        at((1, 1000), (-1, 1000), (1, 300, 1), (1, -600)),
        at((1, 1000), (1, -403, 1), (1, -900)),
        at((1, 1000), (1, -340, 1), (-1, -900)),
    ]
    cases = []
    for values in lists:
        cases.append(Case(DOUBLE, {}, values))
        cases.append(Case(DOUBLE, {'rounding': TO_ODD}, flipped(DOUBLE, values)))
        # a product's first edge is one higher, and so are the numbers met, but for the ends of the first window
        ends = at((1, 0), (1, -53), (1, 1000), (1, 947))
        values = [v if v % DOUBLE.sign in ends else v + (1 << 52) for v in values]
        cases.append(Case(DOUBLE, {'rounding': DOWN}, values, [power(DOUBLE, 0, 1)] * len(values)))
    return cases


def ends_of_binary64():
    """Binary64 from its largest exponent down to its least subnormal number, through terms that cancel or a boundary."""
    f, cases = DOUBLE, []
    big, sign = power(f, 1023), f.sign
    for mode in (EVEN, UP, DOWN, TO_ODD):
        for side in (0, sign):
            c = {'rounding': mode}
            cases.append(Case(f, c, [big, side + 1]))
            cases.append(Case(f, c, [big, big + sign, side + 1]))
            cases.append(Case(f, c, [big, big + sign, power(f, 442), side + 1]))
            cases.append(Case(f, c, [big, side + 1], [power(f, 0), 1]))
            cases.append(Case(f, c, [big, big + sign, side + 1], [big, big, 1]))
            cases.append(Case(f, c, [big, power(f, 733), side + 1, big], [big, power(f, 733), 1, big + sign]))
        cases.append(Case(f, c, [power(f, 511), 1], None, SQUARE))
        cases.append(Case(f, c, [big, 1], None, SQUARE))
        cases.append(Case(f, c, [big + sign, 1 + sign], None, MAGNITUDE))
    return cases


def chain_of_seven(draw, f):
    """The longest chain of a dot with E 11 and p 53: what is left of the first pass has p + 69 digits, the boundary of the second is met, and
    three times a pair that cancels is lost right below the edge."""
    high = f.emax - 1
    big = power(f, high)
    pairs = [(big, big), (big ^ f.sign, big)]

    def put(at, negative, rest=0):
        a = draw.between(max(f.emin, at - high), min(high, at - f.emin))
        pairs.append((power(f, a, negative, rest), power(f, at - a)))

    edge = 2 * high + 1 - 702
    put(edge + f.p + 68, draw.bits(1), draw.choice([0, 1, draw.bits(f.fraction)]))
    edge += f.p + 69 - 766 - 701
    for _ in range(3):
        lost = edge - 1 - draw.below(12)
        put(lost, 0, draw.bits(f.fraction))
        pairs.append((pairs[-1][0] ^ f.sign, pairs[-1][1]))
        edge = lost + 65 - 766
    low = draw.between(1, 3)
    pairs.append((low + f.sign * draw.bits(1), 1))
    if draw.chance(25):
        pairs.append((pairs[-1][0] ^ f.sign, 1))
    left, right = zip(*draw.shuffled(pairs))
    return settings(draw, f), list(left), list(right), VALUE


def by_passes(draw):
    """The sections of sums in 2, 3 and 4 passes, and of products (dots and squares) in 2 to 7."""
    keys = [(passes, False) for passes in (2, 3, 4)] + [(passes, True) for passes in range(2, 8)]
    found = {key: [] for key in keys}
    for case in ends_of_binary64():
        key = case.passes, case.is_product()
        if key in found:
            found[key].append(case)
    while any(len(found[key]) < 24 for key in keys[:-1]):
        f = Format(*draw.choice(WIDE)) if draw.bits(1) else Format(draw.below(4), 11, 64)
        case = drawn(draw, f, (staircase, near_tie, cancelling, descent))
        key = case.passes, case.is_product()
        if len(found.get(key, [0] * 24)) < 24:
            found[key].append(case)
    while len(found[7, True]) < 24:
        case = drawn(draw, Format(len(found[7, True]) % 4, 11, 64), (chain_of_seven,))
        if not case.c['daz']:
            assert case.passes == 7
            found[7, True].append(case)
    return [('%s in %d passes' % ('dots and squares' if key[1] else 'sums', key[0]), found[key]) for key in keys]


def long_chains():
    """The largest exponent and the least subnormal number of wide formats: passes by the thousand, nearly all of which see no term."""
    cases = []
    for i, (e, w) in enumerate(((12, 14), (12, 64), (13, 16), (14, 64), (15, 41), (16, 18), (17, 64), (18, 20), (19, 64), (20, 33), (21, 64),
                                (22, 24), (23, 64), (24, 61), (25, 27), (26, 64), (27, 29), (28, 64))):
        f = Format(i % 4, e, w)
        c = {'rounding': i % 8, 'tininess': i % 2}
        big, least = power(f, f.emax), 1 + f.sign * (i // 2 % 2)
        if e < 26 or i % 2:
            cases.append(Case(f, c, [big, least]))
        if e < 26 or i % 2 == 0:
            cases.append(Case(f, c, [least, big, big ^ f.sign]))
        if e < 25:
            cases.append(Case(f, c, [big, least], None, SQUARE))
            cases.append(Case(f, c, [big, 1, big ^ f.sign], [big, least, big]))
    f = Format(IEEE, 28, 30)
    cases.append(Case(f, {}, [0x1ffffffd, 1]))
    cases.append(Case(f, {'rounding': UP}, [0x1ffffffc, 1], [0x1ffffffc, 1]))
    return cases


# ---- overflow, and numbers below the least normal one

def overflows(saturate):
    """In every kind, rounding and sign: far more than the largest number; and the largest number with less than half a unit of its last place,
    half of it, or more than half. NoInf's next number is its NaN."""
    cases = []
    for kind, mode, negative in product(range(4), range(8), range(2)):
        i = len(cases) // 2
        f = Format(kind, *PAIRS[(i + saturate) % 7])
        big, unit = f.largest(negative, f.p), f.emax - f.p + 1
        half, bit = f.number(negative, 1, unit - 1), f.number(negative, 1, unit - 3)
        c = {'rounding': mode, 'saturate': saturate}
        if i % 3 == 0:
            cases.append(Case(f, c, [big, half], [power(f, 1), power(f, 1)]))
        elif i % 3 == 1 and not negative:
            cases.append(Case(f, c, [big ^ f.sign, big], None, 1 + i % 2))
        else:
            cases.append(Case(f, c, [big, big]))
        assert cases[-1].flags & OVERFLOW
        cases.append(Case(f, c, ([big, half, bit ^ f.sign], [big, half], [big, half, bit], [bit, half, bit, half, big])[(i + mode // 2) % 4]))
    return cases


def least_normal(tininess):
    """The least normal number less a quarter, a half or a whole of the last of q digits below it."""
    cases = []
    for mode, negative, below in product(range(8), range(2), (2, 1, 0)):
        j = mode + tininess + below
        f = Format(j % 4, *((5, 16), (4, 8), (5, 8))[j % 3])
        q = (f.p, f.p, 2)[mode % 3]
        c = {'rounding': mode, 'tininess': tininess, 'precision': 0 if q == f.p else q}
        a = f.emin // 2
        left = [power(f, a, negative), power(f, a - 1, 1 - negative)]
        cases.append(Case(f, c, left, [power(f, f.emin - a), power(f, f.emin - q - below - a + 1)]))
    return cases


def tiny(draw, c):
    """A case about the least normal number and the least subnormal one."""
    f = Format(*draw.choice([(0, 5, 16), (1, 4, 8), (2, 5, 8), (3, 4, 8), (0, 8, 32), (0, 11, 64), (0, 4, 8), (2, 4, 8), (3, 8, 16), (1, 11, 64)]))
    if draw.chance(25):
        c = {**c, 'precision': draw.between(1, f.p)}
    a = draw.between(f.emin // 2 - 2, f.emin // 2 + 2)
    ones = (1 << f.fraction) - 1
    at = draw.choice([f.emin, f.emin - 1, f.emin - 1, f.emin - 2, f.low, f.low - 1, f.low - 2]) - a
    left = [power(f, a, draw.bits(1), draw.choice([0, ones, ones, draw.bits(f.fraction)]))]
    right = [power(f, at, 0, draw.choice([0, 0, ones - draw.bits(1), draw.bits(f.fraction)]))]
    if draw.chance(40):
        left.append(draw.choice([1, f.quiet, f.sign + 1]))
        right.append(power(f, draw.choice([0, -1, -f.p, 1])))
    if draw.chance(20):
        return Case(f, c, left, None, SQUARE)
    if draw.chance(20):
        return Case(f, c, [1, f.quiet, f.quiet - 1, f.sign + 1][:draw.between(1, 4)], None, draw.bits(1))
    return Case(f, c, left, right)


def subnormals(draw, tininess):
    cases = least_normal(tininess)
    while len(cases) < 96:
        case = tiny(draw, {'rounding': len(cases) % 8, 'tininess': tininess})
        if case.flags & TINY or len(cases) % 6 == 0:
            cases.append(case)
    return cases


def flushed(draw):
    """An exact sum that is subnormal, and a case drawn, in every rounding, tininess and sign."""
    cases = []
    for mode, tininess, negative in product(range(8), range(2), range(2)):
        f = Format((mode + tininess) % 4, *PAIRS[len(cases) // 2 % 7])
        c = {'rounding': mode, 'tininess': tininess, 'flush': 1}
        cases.append(Case(f, c, [f.number(negative, 3, f.low), f.number(1 - negative, 1, f.low)]))
        cases.append(tiny(draw, c))
    return cases


def denormals(draw):
    """Subnormal operands taken as zeros, beside ones that are not."""
    cases = []
    for i in range(56):
        f = Format(i % 4, *PAIRS[i % 7])
        c = {'rounding': i % 8, 'daz': int(i % 7 != 3), 'tininess': i // 8 % 2, 'flush': int(i % 9 == 4)}
        pool = [1, f.sign + 1, f.quiet, (1 << f.fraction) - 1, f.sign + (1 << f.fraction) - 1, 0, power(f, 0), power(f, f.emin, 1)]
        if f.kind == IEEE:
            pool += [f.infinity(i % 2), f.infinity(0) + f.quiet]
        if i % 4 == 1:
            pool = pool[:5]
        values = [draw.choice(pool) for _ in range(draw.between(1, 4))]
        if i % 3 == 0:
            cases.append(Case(f, c, values, [draw.choice(pool) for _ in values]))
        else:
            cases.append(Case(f, c, values, None, (0, 0, 1, 2)[i // 3 % 4]))
    return cases


def precisions(draw):
    """A limit of q digits: ties at q digits (a number of q digits and half a unit of its last one, less, or more), overflow, subnormal numbers."""
    cases = []
    for mode, pair, turn in product(range(8), PAIRS, range(2)):
        i = len(cases)
        f = Format(i // 3 % 4, *pair)
        q = (1, 2, f.p - 1, f.p)[i // 2 % 4] if turn else draw.between(1, f.p)
        c = {'rounding': mode, 'tininess': i % 2, 'precision': q, 'saturate': i // 7 % 2}
        negative = i // 2 % 2
        m = (1 << q - 1) + (draw.bits(q - 1) if q > 1 else 0)
        half, bit = f.number(negative, 1, 3 - q), f.number(negative, 1, max(-q, f.low))
        values = [f.number(negative, m, 4 - q), half] + [[], [bit], [bit ^ f.sign]][i % 3]
        if i % 5 == 4:
            values = [f.largest(negative, q), f.number(negative, 1, f.emax - q)] + [half] * (i % 2)
        elif i % 5 == 3:
            values = [f.number(negative, 5, f.low), f.number(negative, 1, f.low)]
        cases.append(Case(f, c, values, [power(f, 0)] * len(values) if i % 5 == 2 else None))
    return cases


# ---- lists that are not rounded

def nans(rule):
    """NaNs of either sign, quiet and signaling, with payloads, by one rule; in sums of each summand and on either side of a dot."""
    cases = []
    for j, pair in enumerate(((5, 16), (11, 64), (3, 6), (8, 32), (15, 64))):
        f = Format(IEEE, *pair)
        inf, one = f.infinity(0), power(f, 0)
        nan = lambda negative, signaling, payload: f.sign * negative + inf + f.quiet * (not signaling) + payload
        most, some = f.quiet - 1, f.quiet // 2
        lists = [
            [nan(0, 0, some), nan(1, 1, 1), nan(0, 1, most)],
            [nan(1, 0, some), nan(0, 0, some), nan(1, 0, 0)],
            [nan(1, 1, most), nan(0, 1, most), one],
            [one, nan(1, 0, 0), nan(0, 1, most), 1],
            [nan(0, 1, 1), nan(1, 0, most), inf],
        ]
        for i in range(3):
            values = lists[(i + 2 * j + rule) % 5]
            c = {'nan': rule, 'negative': (i + j) % 2, 'rounding': (i + 3 * j) % 8}
            cases.append(Case(f, c, values))
            cases.append(Case(f, c, values, None, 1 + i % 2))
            cases.append(Case(f, c, values, [one, inf, 0, one + f.sign][:len(values)]))
            cases.append(Case(f, c, [one, nan(i % 2, 0, 1), inf, one][:len(values)], values))
    for f in (Format(NOINF, 4, 8), Format(FNUZ, 4, 8), Format(NOINF, 11, 64), Format(FNUZ, 5, 16)):
        for negative in range(2):
            none = f.nan(negative, 0)
            c = {'nan': rule, 'negative': negative}
            cases.append(Case(f, c, [power(f, 0), none, f.sign | f.nan(1, 0)]))
            cases.append(Case(f, c, [none], None, 1 + negative))
            cases.append(Case(f, c, [0, 1], [none, f.sign - 1]))
    return cases


def infinities():
    cases = []
    for negative in range(2):
        for pair in ((5, 16), (11, 64)):
            f = Format(IEEE, *pair)
            inf, one = f.infinity(0), power(f, 0)
            quiet, signaling = inf + f.quiet + 1, f.sign + inf + 1
            c = {'negative': negative, 'saturate': negative, 'rounding': 3 * negative}
            for values in ([inf], [inf + f.sign], [inf, inf + f.sign], [inf, one, inf], [inf + f.sign, quiet], [inf, signaling], [inf + f.sign, 1, f.sign]):
                cases += [Case(f, c, values, None, summand) for summand in range(3)]
                cases.append(Case(f, c, values, [one + f.sign * negative] * len(values)))
            cases.append(Case(f, c, [inf, one], [0, one]))
            cases.append(Case(f, c, [f.sign, quiet], [inf, one]))
            cases.append(Case(f, {**c, 'daz': 1}, [1, one], [inf, one]))
            cases.append(Case(f, c, [inf, one], [one + f.sign, inf]))
            cases.append(Case(f, c, [inf, 0, one], [inf, one, one]))
    return cases


def zeros():
    cases = []
    for kind in range(4):
        f = Format(kind, 4, 8)
        one, minus = power(f, 0), 0 if kind == FNUZ else f.sign
        for mode in (EVEN, UP, DOWN) if kind else range(8):
            c = {'rounding': mode}
            for values in ([], [0], [minus], [0, minus], [one, minus, one + f.sign]):
                cases.append(Case(f, c, values))
            cases.append(Case(f, c, [minus], None, 1 + mode % 2))
            cases.append(Case(f, c, [], []))
            cases.append(Case(f, c, [0, minus], [one + f.sign, one]))
            cases.append(Case(f, c, [one, minus, one], [one + f.sign, one, one]))
    return cases


# ---- drawn lists

# terms further apart are for long_chains alone: the exact sum has as many bits
WIDEST = 1000000


def settings(draw, f):
    c = {name: draw.below(most) for name, most in zip(SETTINGS, RANGES)}
    for name in ('flush', 'daz', 'saturate'):
        c[name] &= draw.bits(1)
    c['precision'] = draw.between(1, f.p) if draw.chance(30) else 0
    return c


def any_value(draw, f, near):
    pick = draw.below(100)
    rest = draw.choice([0, 1, (1 << f.fraction) - 1, 1 << f.fraction - 1, draw.bits(f.fraction)])
    if pick < 10:
        field = draw.choice([0, f.ones])
    elif pick < 30:
        field = draw.bits(f.e)
    else:
        field = near + draw.choice([0, 0, 1, -1, f.p, -f.p, -2 * f.p, -70, -700, -1400, draw.between(-80, 80)])
    return f.sign * draw.bits(1) + (min(max(field, 0), f.ones) << f.fraction) + rest


def mixed(draw, f):
    """Any values close to one exponent, some of them with their negatives."""
    near = draw.choice([0, 1, f.ones - 1, f.bias, draw.bits(f.e)])
    dot = draw.chance(40)
    tame = lambda values: [v if f.decode(v)[0] in ('zero', 'number') else power(f, near - f.bias) for v in values]
    left = [any_value(draw, f, near) for _ in range(draw.below(5))]
    if draw.chance(75):
        left = tame(left)
    if left and draw.chance(40):
        left.insert(draw.below(len(left) + 1), draw.choice(left) ^ f.sign)
    if not dot:
        return settings(draw, f), left, None, draw.choice([0, 0, 0, 1, 2])
    near = draw.choice([near, f.bias, f.bias, draw.bits(f.e)])
    right = [any_value(draw, f, near) for _ in left]
    if draw.chance(75):
        right = tame(right)
    if draw.chance(30):
        right = right[:1] * len(left)
    return settings(draw, f), left, right, VALUE


STEPS = (1, 2, 60, 64, 65, 66, 70, 640, 700, 701, 702, 703, 764, 765, 766, 767, 768, 1400, 1468)


def near_tie(draw, f):
    """A number, half a unit of it, and what decides between them, far below."""
    c = settings(draw, f)
    q = c['precision'] or f.p
    top = draw.choice([0, draw.between(-50, 50), draw.between(0, min(f.emax, 9000)), f.emax - 1])
    negative = draw.bits(1)
    rest = draw.choice([0, (1 << f.fraction) - 1, draw.bits(f.fraction)]) >> f.p - q << f.p - q
    values = [power(f, top, negative, rest), power(f, top - q, negative if draw.chance(70) else 1 - negative)]
    at = top - q
    for _ in range(draw.below(4)):
        at -= draw.choice(STEPS + (draw.between(1, 2000),))
        values.append(power(f, at, draw.bits(1), draw.choice([0, draw.bits(f.fraction)])))
    if len(values) < 5 and draw.chance(30):
        values.append(draw.choice(values[1:]) ^ f.sign)
    values = draw.shuffled(values)
    if draw.chance(35):
        return c, values, [power(f, draw.choice([0, 0, 0, 1, -3]), draw.bits(1) & draw.bits(1)) for _ in values], VALUE
    return c, values, None, draw.choice([0, 0, 0, 0, 1, 2])


def cancelling(draw, f):
    """Values with most of their negatives, and at times one value more."""
    c = settings(draw, f)
    spread = draw.choice([100, 800, 1600, 4000])
    base = draw.choice([f.emax - 1, draw.between(-100, min(f.emax - 1, 6000)), spread + f.emin])
    dot = draw.chance(40)
    values = [power(f, base - draw.below(spread + 1), draw.bits(1), draw.choice([0, draw.bits(f.fraction)])) for _ in range(draw.between(1, 2 if dot else 5))]
    values += [v ^ f.sign for v in values if draw.chance(90)]
    if draw.chance(70):
        values.append(power(f, base - draw.below(2 * spread + 1), draw.bits(1), draw.bits(f.fraction)))
    if draw.chance(30):
        values.append(draw.choice([0, 1, 0 if f.kind == FNUZ else f.sign]))
    values = draw.shuffled(values)
    if not dot:
        return c, values, None, VALUE
    values = values[:6]
    return c, values, [power(f, draw.choice([0, 1, f.emin // 2, f.emax // 2]))] * len(values), VALUE


def staircase(draw, f):
    """Pairs that cancel, each far below the one before, and what decides at the end: many passes."""
    c = settings(draw, f)
    top = f.emax - 1
    if draw.chance(40):
        at, left = top, []
        for _ in range(draw.between(1, 3)):
            left.append(power(f, at, draw.bits(1), draw.choice([0, draw.bits(f.fraction)])))
            at -= draw.choice([766, 767, 768, 830, 701 + f.p, draw.between(300, 1000)])
        left += [v ^ f.sign for v in left if draw.chance(95)]
        if draw.chance(60):
            left += [power(f, at), power(f, at - f.p), power(f, at - f.p - draw.choice(STEPS), draw.bits(1))]
        return c, left, None, VALUE
    # a product reaches twice as far: a position is shared between the factors
    left, right = [], []
    at = 2 * top
    while at >= 2 * f.emin and len(left) < 6:
        a = min(top, at - f.emin) if draw.bits(1) else at // 2
        left.append(power(f, a, draw.bits(1)))
        right.append(power(f, at - a))
        if len(left) % 2 == 1 and draw.bits(1) and len(left) < 6:
            left.append(left[-1] ^ f.sign)
            right.append(right[-1])
        at -= draw.choice([f.p, 701, 766, 767, 768, 830, 700 + f.p, draw.between(300, 1000)])
    return c, left, right, VALUE


def descent(draw, f):
    """Products from the largest ones down to the least, most of which cancel."""
    c = settings(draw, f)
    high = f.emax - 1
    big = power(f, high)
    pairs = [(big, big), (big ^ f.sign, big)] if draw.bits(1) else [(big ^ f.sign * draw.bits(1), big)]
    for _ in range(draw.below(3)):
        at = draw.between(max(2 * f.emin, 2 * high - 5000), 2 * high)
        a = draw.between(max(f.emin, at - high), min(high, at - f.emin))
        pairs.append((power(f, a, draw.bits(1)), power(f, at - a)))
        if len(pairs) < 5 and draw.bits(1):
            pairs.append((pairs[-1][0] ^ f.sign, pairs[-1][1]))
    pairs = pairs[:5] + [(draw.choice([1, power(f, f.emin)]) ^ f.sign * draw.bits(1), draw.choice([1, 2, 3, power(f, f.emin), power(f, 0)]))]
    left, right = zip(*draw.shuffled(pairs))
    return c, list(left), list(right), VALUE


def drawn(draw, f, makers):
    """A case of one of the makers, none with terms too far apart."""
    while True:
        c, left, right, summand = draw.choice(makers)(draw, f)
        xs = operands(f, c, left)[0]
        terms, top = sum_terms(summand, xs) if right is None else dot_terms(list(zip(xs, operands(f, c, right)[0])))
        if top - min((x for _, _, x in terms), default=top) <= WIDEST:
            return Case(f, c, left, right, summand)


def named_formats(draw):
    """binary16, bfloat16, TF32, binary32, binary64 and the two 8-bit formats, in the four kinds."""
    return [drawn(draw, Format(kind, *pair), (mixed, mixed, near_tie, cancelling))
            for pair in ((5, 16), (8, 16), (8, 19), (8, 32), (11, 64), (4, 8), (5, 8)) for kind in range(4) for _ in range(4)]


def many_formats(draw, kind):
    """Every E from 2 to 28, each with W = E + 2, W = 64 and two widths drawn."""
    return [drawn(draw, Format(kind, e, w), (mixed, mixed, near_tie, cancelling))
            for e in range(2, 29) for w in (e + 2, 64, draw.choice(widths(e)), draw.choice(widths(e)))]


def rearrangements(draw):
    return in_five_orders(draw, 220, lambda n: Format(*draw.choice(WIDE)) if n % 20 < 10 else Format(draw.below(4), *draw.choice(PAIRS)))


def in_five_orders(draw, most, format_of):
    """Lists and pairs in five orders: as drawn, backwards, by encoding, and shuffled twice. One record for each."""
    cases = []
    while len(cases) < most:
        f = format_of(len(cases))
        case = drawn(draw, f, (staircase, near_tie, cancelling, mixed))
        rows = list(zip(case.left, case.right)) if case.right is not None else [(v,) for v in case.left]
        if len(set(rows)) < 3 or any(f.decode(v)[0] == 'nan' for row in rows for v in row):
            continue
        group = []
        for order in (rows, rows[::-1], sorted(rows), draw.shuffled(rows), draw.shuffled(rows)):
            left, *right = [list(side) for side in zip(*order)]
            group.append(Case(f, case.c, left, right[0] if right else None, case.summand))
        assert len({other.answer() for other in group}) == 1
        cases += group
    return cases


# ---- refusals

HALF, ONE, STRAY = (0, 5, 16), 0x3c00, 1 << 16


def each_refusal():
    """Each number by itself, at the limits of its condition and beyond them."""
    cases = []
    # 1: bytes behind the last whole value
    for x in range(1, 8):
        cases.append(Case(HALF, {}, [ONE] * (x % 3), None, 0, (x, 0)))
        cases.append(Case(HALF, {}, [ONE], [ONE], 0, (x, 0) if x % 2 else (0, x)))
    cases.append(Case(HALF, {}, [ONE], [ONE], 0, (4, 4)))
    # 2: a buffer of 23 bytes or fewer
    for room in (0, 1, 8, 16, 23):
        cases.append(Case(HALF, {}, [ONE], None, 0, (0, 0), room))
        cases.append(Case(HALF, {}, [ONE], [ONE], 0, (0, 0), room))
    # 3: the format; the last four are accepted
    for kind, e, w in ((4, 11, 64), (15, 5, 16), (0, 1, 16), (0, 0, 8), (0, 29, 64), (1, 11, 12), (2, 11, 65), (3, 28, 29), (0, 255, 255), (0, 11, 0),
                       (3, 2, 4), (2, 2, 64), (1, 28, 30), (0, 28, 64)):
        cases.append(Case((kind, e, w), {}, []))
        cases.append(Case((kind, e, w), {}, [0], [0]))
    # 4: a setting, the summand of a sum; a dot looks at none
    for name, most in zip(SETTINGS, RANGES):
        for bad in (most, 15):
            cases.append(Case(HALF, {name: bad}, [ONE]))
            cases.append(Case(HALF, {name: bad}, [ONE], [ONE]))
    for precision in (12, 255):
        cases.append(Case(HALF, {'precision': precision}, [ONE]))
        cases.append(Case(HALF, {'precision': precision}, [ONE], [ONE]))
    cases += [Case(HALF, {}, [ONE], None, 3), Case(HALF, {}, [], None, 15), Case(HALF, {}, [ONE], [ONE], 3)]
    # 5: a dot's lists of different lengths
    for n, m in ((2, 3), (3, 2), (0, 1), (1, 0), (6, 5)):
        cases.append(Case(HALF, {}, [ONE] * n, [ONE] * m))
    # 7: a bit at W or above: the first such element of the left list, else of the right one
    for i in range(6):
        far = [ONE] * i + [ONE + (1 << (16, 40)[i % 2])] + [ONE] * (5 - i)
        cases.append(Case(HALF, {}, far))
        cases.append(Case(HALF, {}, far, [ONE] * 6))
        cases.append(Case(HALF, {}, [ONE] * 6, far))
    cases.append(Case(HALF, {}, [ONE, STRAY, 1 << 20]))
    cases.append(Case(HALF, {}, [ONE] * 11 + [1 << 63]))
    cases.append(Case(HALF, {}, [ONE, ONE, STRAY], [STRAY, 0, 0]))
    cases.append(Case(HALF, {}, [ONE, 1 << 63, ONE, STRAY], [1 << 20, 0, STRAY, 0]))
    cases.append(Case(HALF, {}, [ONE] * 4, [ONE, 1 << 63, ONE, STRAY]))
    cases.append(Case(HALF, {}, [0x7e00, STRAY]))
    cases.append(Case((0, 2, 63), {}, [0, 1 << 63]))
    cases.append(Case((0, 2, 64), {}, [0, 1 << 63]))
    cases.append(Case((0, 2, 4), {}, [15, 16]))
    return cases


def spoiled(numbers, dot, turn, bias=None):
    """A call of which exactly the conditions of these numbers hold: 3 by the bias, where one is named."""
    f = ((5, 5, 16), (0, 1, 16), (1, 29, 40), (2, 11, 12))[turn % 4] if 3 in numbers and bias is None else (turn % 4, 5, 16)
    c = ({'rounding': 8}, {'nan': 4}, {'saturate': 2}, {'tininess': 15})[turn // 2 % 4] if 4 in numbers else {}
    summand = 0
    if numbers.isdisjoint({1, 2, 3}) and turn % 3 == 2 and 4 in numbers:
        c, summand = ({'precision': 12}, 0) if dot or turn % 2 else ({}, 3)
    left, right = [ONE, 2, ONE], [ONE, ONE, 3] if dot else None
    if 3 in numbers:
        left, right = [1, 2, 3], [1, 1, 3] if dot else None
    if 7 in numbers:
        side = right if dot and turn % 2 else left
        side[turn % 3] += 1 << f[2] + turn
    if 5 in numbers:
        left = left + [1] if turn % 4 < 2 else left
        right = right + [1, 1] if turn % 4 < 2 else right + [1]
    more = (0, 0)
    if 1 in numbers:
        more = (1 + turn, 0) if not dot or turn % 2 else (0, 1 + turn)
    case = Case((*f, bias), c, left, right, summand, more, (0, 23, 8, 22)[turn % 4] if 2 in numbers else 32)
    assert case.holds == set(numbers), (numbers, case.holds)
    assert case.returned % 256 == min(numbers)
    return case


def two_refusals():
    """Every two numbers that hold together but 6, whose lists are too long for a row."""
    cases = []
    for numbers in combinations((1, 2, 3, 4, 5, 7), 2):
        for turn in range(4):
            if 5 not in numbers:
                cases.append(spoiled(set(numbers), False, turn))
            cases.append(spoiled(set(numbers), True, turn))
    return cases


def more_refusals():
    """Every three numbers and more that hold together."""
    cases = []
    for n in (3, 4, 5, 6):
        for numbers in combinations((1, 2, 3, 4, 5, 7), n):
            if 5 not in numbers:
                cases.append(spoiled(set(numbers), False, len(cases) % 4))
            cases.append(spoiled(set(numbers), True, len(cases) % 4))
    return cases


# ---- named biases

# E, W and a bias of formats whose products may be normal numbers: 23 of them, prime to the numbers of kinds, modes, signs and sides
PRODUCTS = [(4, 8, 0), (5, 16, 0), (11, 64, 0), (4, 8, 1), (5, 16, 1), (11, 64, 1), (4, 8, -1), (5, 16, -1), (11, 64, -1), (4, 8, 11), (11, 64, 11),
            (5, 16, 40), (8, 32, 40), (11, 64, 40), (8, 32, -40), (11, 64, -40), (11, 64, 2000), (15, 64, 2000), (11, 64, -2000), (15, 64, -2000),
            (28, 64, -2 ** 27), (28, 64, 2 ** 28), (28, 64, -2 ** 28)]
# of these, the thirteen whose products may be subnormal
LOW_PRODUCTS = [f for f in PRODUCTS if f[2] >= 0 and f != (11, 64, 11)]
# nine whose products may be the largest numbers
HIGH_PRODUCTS = [(4, 8, 0), (5, 16, -1), (11, 64, 1), (8, 32, -40), (11, 64, -2000), (28, 64, -2 ** 27), (5, 16, 0), (4, 8, 1), (15, 64, 2000)]
# formats of which no product is finite, or no product but 0 is
VAST, VANISHING = [(5, 16, -2000), (4, 8, -2 ** 27), (11, 64, -2 ** 28), (4, 8, -40)], [(5, 16, 2000), (4, 8, 2 ** 27), (11, 64, 2 ** 28), (4, 8, 40)]


def products(f, terms, turn):
    """Lists of which the pairs' products are these terms, each a sign, m and x for m * 2^x: the one factor has the significand m, the other is a
    power of two, and which of them is the greater depends on the turn."""
    left, right = [], []
    for negative, m, x in terms:
        least, most = max(f.low, x + m.bit_length() - 1 - f.emax), min(f.emax, x - f.low)
        assert least <= most
        a = least + (most - least) * (turn % 3) // 2
        left.append(f.number(negative, m, x - a))
        right.append(f.number(0, 1, a))
    return left, right


def bias_examples():
    """The largest number of E4M3B11FNUZ; 2^15 in binary16 with the bias 0, and 1 with its own; binary16 whose products are too small or too great;
    and E2M1 whose least number is 8."""
    rows = [
        ((2, 4, 8, 11), VALUE, [0x7f], None, 0x7f, 0x00, 4 - 702),
        ((2, 4, 8, 11), VALUE, [0x7f, 0x7f], None, 0x80, 0x14, 4 - 702),
        ((0, 5, 16, 0), VALUE, [0x3c00, 0x3c00], None, 0x4000, 0x00, 15 - 702),
        ((0, 5, 16, 15), VALUE, [0x3c00, 0x3c00], None, 0x4000, 0x00, 0 - 702),
        ((0, 5, 16, 40), SQUARE, [0x0400], None, 0, 0x38, -77 - 702),
        ((0, 5, 16, 40), VALUE, [0x0400], [0x0400], 0, 0x38, -77 - 702),
        ((0, 5, 16, -40), SQUARE, [0x0400], None, 0x7c00, 0x54, 83 - 702),
        ((0, 5, 16, -40), VALUE, [0x0400], [0x0400], 0x7c00, 0x54, 83 - 702),
        ((0, 5, 16, -2000), SQUARE, [1], None, 0x7c00, 0xd4, 3983 - 702),
        ((3, 2, 4, -3), VALUE, [1, 3], None, 4, 0x80, 4 - 702),
        ((3, 2, 4, -3), VALUE, [1], [1], 6, 0x80, 7 - 702),
        ((3, 2, 4, -3), SQUARE, [2], None, 7, 0x14, 9 - 702),
    ]
    cases = []
    for f, summand, left, right, result, flags, edge in rows:
        case = Case(f, {}, left, right, summand)
        assert (case.result, case.flags, case.passes, case.edge) == (result, flags, 1, edge)
        cases.append(case)
    return cases


def bias_roundings():
    """In every kind, rounding and sign a sum of products that is a normal number and less than half a unit of its last place, half of it beside an
    even or an odd number, or more than half."""
    cases = []
    for kind, mode, negative in product(range(4), range(8), range(2)):
        i = len(cases)
        side = ('below', 'on', 'on odd', 'above')[(kind + mode + negative) % 4]
        f = Format(kind, *PRODUCTS[5 * i % 23])
        # the place of the last digit: the lowest there is, the highest, or between them
        least, most = max(2 * f.low + 4, f.low), min(f.emax, 2 * f.emax) - f.p + 1
        unit = (least, (least + most) // 2, most)[i % 3]
        m = (1 << f.fraction) + (i * 2654435761 % (1 << f.fraction) & ~1) + (side == 'on odd')
        half = [(negative, 7, unit - 4)] if side == 'below' else [(negative, 1, unit - 1)]
        more = [(negative, 1, unit - 3)] if side == 'above' else []
        case = Case(f, {'rounding': mode, 'tininess': i % 2}, *products(f, [(negative, m, unit)] + half + more, i))
        assert (case.side, case.below_zero) == (side, negative)
        cases.append(case)
    return cases


def bias_overflows():
    """In every kind and rounding: the product of two largest numbers; products of the least ones, where these are too great already; and the largest
    number with half a unit of its last place."""
    cases = []
    for kind, mode in product(range(4), range(8)):
        i = len(cases)
        negative = (i + i // 8) % 2
        c = {'rounding': mode, 'saturate': i // 3 % 2}
        f = Format(kind, *HIGH_PRODUCTS[i % 9])
        if i % 4 == 0:
            big = f.largest(negative, f.p)
            case = Case(f, c, [big], [f.largest(0, f.p)])
        elif i % 4 == 1:
            f = Format(kind, *VAST[i // 4 % 4])
            case = Case(f, c, [1, f.sign + 1], None, SQUARE)
        elif i % 4 == 2:
            m, unit = (1 << f.p) - 1 - (kind == NOINF), f.emax - f.p + 1
            case = Case(f, c, *products(f, [(negative, m, unit), (negative, 1, unit - 1)], i))
        else:
            f = Format(kind, *VAST[i // 4 % 4])
            case = Case(f, c, [power(f, f.emin, negative, 1)], [1])
        assert case.flags & OVERFLOW or i % 4 == 2
        cases.append(case)
    return cases


def bias_tiny():
    """In every kind and rounding: the product of two largest numbers, where it is too small; the least normal number less half or a quarter of the
    least number; the least number and its half, or twice that and its half; and an exact sum of subnormal numbers."""
    cases = []
    for kind, mode in product(range(4), range(8)):
        i = len(cases)
        negative = (i + i // 8) % 2
        c = {'rounding': mode, 'tininess': (i // 4 + kind) % 2, 'flush': int(i % 7 == 6)}
        f = Format(kind, *LOW_PRODUCTS[i % 13])
        if i % 4 == 0:
            f = Format(kind, *VANISHING[i // 4 % 4])
            case = Case(f, c, [f.largest(negative, f.p)], [f.largest(0, f.p)])
        elif i % 4 == 1:
            case = Case(f, c, *products(f, [(negative, 1, f.emin), (1 - negative, 1, f.low - 1 - i // 16)], i))
        elif i % 4 == 2:
            case = Case(f, c, *products(f, [(negative, 1 + i // 4 % 2, f.low), (negative, 1, f.low - 1)], i))
        else:
            f = Format(kind, *(PRODUCTS + VAST + VANISHING)[3 * i % 31])
            case = Case(f, c, [f.number(negative, 1, f.low), f.number(negative, 1, f.low)])
        assert case.flags & TINY or c['tininess']
        cases.append(case)
    return cases


def bias_ends():
    """The greatest bias and the least, in every kind: numbers and a tie, terms that cancel, subnormal numbers, squares, products."""
    cases = []
    for i, (kind, bias, pair) in enumerate(product(range(4), (2 ** 28, -2 ** 28), ((11, 64), (28, 64)))):
        c = {'rounding': i % 8, 'tininess': i // 8, 'daz': int(i % 5 == 4)}
        f = Format(kind, *pair, bias)
        t = f.emin + i
        cases.append(Case(f, c, [power(f, t + f.p, i % 2, 1), power(f, t, i % 2), 1]))
        f = Format(kind, *((5, 16), (4, 8), (28, 30))[i % 3], bias)
        big, some = f.largest(0, f.p), power(f, f.emin + 1)
        # a sum and one of products, for each kind and bias
        turn = '0213130203121203'[i]
        if turn == '0':
            cases.append(Case(f, c, [1, some, f.sign + some, f.sign + 2, 3]))
        elif turn == '3':
            cases.append(Case(f, c, [1, f.sign + big], [2, 1]))
        else:
            cases.append(Case(f, c, [some, f.sign + 1], None, int(turn)))
    return cases


def bias_own(draw):
    """The bias that the kind has anyway: every answer as without it."""
    cases = []
    for kind, pair in product(range(4), ((4, 8), (5, 16), (11, 64), (28, 64))):
        plain = drawn(draw, Format(kind, *pair), (mixed, near_tie, cancelling))
        case = Case(Format(kind, *pair, own_bias(kind, pair[0])), plain.c, plain.left, plain.right, plain.summand)
        assert case.answer() == plain.answer()
        cases.append(case)
    return cases


def bias_orders(draw):
    formats = (0, 11, 64, 40), (1, 11, 64, -2000), (2, 5, 16, -40), (3, 28, 64, 2 ** 28), (0, 8, 32, -40)
    return in_five_orders(draw, 25, lambda n: Format(*formats[n // 5]))


def bias_refusals():
    """3 for the bias: off by one, far off, and right in its low bits alone. Other refusals at once with it, 1 and 2 before it; and by themselves,
    beside a bias in its range. The biases at both ends are accepted."""
    cases = []
    far = 2 ** 28 + 1, 2 ** 63 - 1, 2 ** 32 + 15
    for bias in (*far, *(-n for n in far)):
        cases.append(Case((0, 5, 16, bias), {}, [ONE]))
        cases.append(Case((3, 5, 16, bias), {}, [ONE], [ONE]))
    for bias in (2 ** 28, -2 ** 28):
        cases.append(Case((0, 5, 16, bias), {}, [ONE]))
    for i, numbers in enumerate(({1, 3}, {2, 3}, {3, 4}, {3, 7}, {3, 5}, {1, 2, 3}, {3, 4, 5, 7}, {1, 2, 3, 4, 5, 7})):
        bias = (far[i % 2], -far[i % 2])[i // 2 % 2]
        cases.append(spoiled(numbers, 5 in numbers or i % 2 == 1, i % 4, bias))
    for i, number in enumerate((1, 2, 4, 7, 5)):
        cases.append(spoiled({number}, number == 5 or i % 2 == 1, i % 4, (-40, 0, 40, 2000, 2 ** 28)[i]))
    for f in ((4, 5, 16, 15), (0, 1, 16, 0), (0, 29, 64, 2 ** 27), (1, 5, 6, 2 ** 28 + 1)):
        cases.append(Case(f, {}, []))
    return cases


# ---- mirror and square

def negative(f, b):
    """Fnuz's zero is its own negative."""
    return b if f.kind == FNUZ and b == 0 else b ^ f.sign


def is_finite_in(f, values):
    return all(f.decode(v)[0] in ('zero', 'number') for v in values)


def mirrored(case):
    """All values negated, or those of a dot's left list, and the two directed modes exchanged."""
    f = case.format()
    mode = case.c['rounding']
    return Case(f, {**case.c, 'rounding': {UP: DOWN, DOWN: UP}.get(mode, mode)}, [negative(f, b) for b in case.left], case.right)


def mirrors(draw, format_of):
    """In every kind and rounding a sum and a dot of finite values with another trait each, and its mirror: the negated result with the same flags,
    passes and last edge, on the other side."""
    traits = [lambda c: True, lambda c: c.passes > 1, lambda c: c.flags & OVERFLOW, lambda c: c.flags & TINY, lambda c: c.flags & SUBNORMAL and c.c['daz'],
              lambda c: any(c.format().decode(b)[0] == 'zero' for b in c.left), lambda c: c.side in ('on', 'on odd')]
    cases = []
    for kind, mode, dot in product(range(4), range(8), (False, True)):
        trait = traits[len(cases) // 2 % 7]
        while True:
            made = drawn(draw, format_of(kind), (mixed, near_tie, cancelling, staircase))
            case = Case(made.format(), {**made.c, 'rounding': mode}, made.left, made.right)
            f = case.format()
            if dot == (case.right is not None) and made.summand == VALUE and is_finite_in(f, case.left + (case.right or [])) and trait(case) \
                    and f.decode(case.result)[0] in ('number', 'infinity'):
                break
        other = mirrored(case)
        assert (other.result, other.flags, other.passes, other.edge) == (negative(f, case.result), case.flags, case.passes, case.edge)
        assert other.leans == {BELOW: ABOVE, ABOVE: BELOW}.get(case.leans, case.leans)
        cases += [case, other]
    return cases


def squares(draw, format_of, refused):
    """In every kind and rounding the square sum of a list without a NaN, and its dot product with itself: one record. Then refused calls of both, in a
    format of less than 64 bits."""
    cases = []
    while len(cases) < 64:
        kind, mode = len(cases) // 16, len(cases) // 2 % 8
        made = drawn(draw, format_of(kind), (mixed, near_tie, cancelling))
        f, left = made.format(), made.left[:6]
        if left and not any(f.decode(b)[0] == 'nan' for b in left):
            cases += squared(f, {**made.c, 'rounding': mode}, left)
    beyond = 1 << refused[2]
    bad = (refused[0], 29, *refused[2:])
    for f, c, left in ((refused, {}, [0, beyond + 1, beyond]), (refused, {'rounding': 8}, [1]), (bad, {}, [1, 2]), (bad, {'rounding': 8}, [beyond])):
        cases += squared(f, c, left)
    return cases


def squared(f, c, left):
    """The square sum of a list, and its dot product with itself."""
    pair = [Case(f, c, left, None, SQUARE), Case(f, c, left, left)]
    assert pair[0].answer() == pair[1].answer()
    return pair


def mirror_examples():
    """C7, Fnuz's zero, and the largest number of Fnuz twice; then what the mirror is not claimed of: the NaN of such a sum, and a sum of 0."""
    half, fnuz = Format(IEEE, 5, 16), Format(FNUZ, 4, 8)
    rows = [
        (DOUBLE, {'rounding': UP}, [0x3ff0000000000000, 0x3ca0000000000000, 0x0170000000000000], 0x3ff0000000000001, 0xbff0000000000001, 0x50, 2, -1403),
        (fnuz, {}, [0, 0x38], 0x38, 0xb8, 0, 1, -703),
        (fnuz, {'saturate': 1}, [0x7f, 0x7f], 0x7f, 0xff, 0x14, 1, -695),
        (fnuz, {}, [0x7f, 0x7f], 0x80, 0x80, 0x14, 1, -695),
        (half, {}, [ONE, ONE ^ half.sign], 0, 0, 0, 1, -702),
    ]
    cases = []
    for f, c, left, result, other, flags, passes, edge in rows:
        case = Case(f, c, left)
        pair = [case, mirrored(case)]
        assert [(made.result, made.flags, made.passes, made.edge) for made in pair] == [(r, flags, passes, edge) for r in (result, other)]
        cases += pair
    return cases


def square_examples():
    """-infinity beside the least number; zeros; a subnormal number taken as zero. With a NaN behind an infinity the two differ."""
    f = Format(IEEE, 5, 16)
    rows = [([0xfc00, 1], {}, 0x7c00, 0x80), ([0x8000, 0], {'rounding': DOWN}, 0, 0), ([0x8001], {'daz': 1}, 0, 0x80), ([0x7c00, 0xfc00], {}, 0x7c00, 0)]
    cases = []
    for left, c, result, flags in rows:
        cases += squared(f, c, left)
        assert (cases[-1].result, cases[-1].flags) == (result, flags)
    left = [0xfc00, 0x7e00]
    cases += [Case(f, {}, left, None, SQUARE), Case(f, {}, left, left)]
    assert [case.result for case in cases[-2:]] == [0x7c00, 0x7e00]
    return cases


def mirror_sections():
    draw = Draw(11)
    plain = lambda kind: Format(kind, *draw.choice(PAIRS if draw.chance(60) else FAR))
    named = lambda kind: Format(kind, *draw.choice(PRODUCTS))
    return [
        ('a list and its mirror', mirror_examples() + mirrors(draw, plain)),
        ('a square sum and the dot with itself', square_examples() + squares(draw, plain, (IEEE, 5, 16))),
        ('a named bias: a list and its mirror', mirrors(draw, named)),
        ('a named bias: a square sum and the dot', squares(draw, named, (FNUZ, 8, 32, -40))),
    ]


# ---- the list

def sections():
    draw = Draw(754)
    made = [
        ('C1 to C12', careers()),
        ('roundings by sign and side of a tie', roundings()),
        ('below, on and above a boundary', boundaries()),
        ('margins of the passes', margins()),
        *by_passes(draw),
        ('longer chains, up to 700,877 passes', long_chains()),
        ('overflow', overflows(0)),
        ('overflow, saturated', overflows(1)),
        ('tiny results, tininess before rounding', subnormals(draw, 0)),
        ('tiny results, tininess after rounding', subnormals(draw, 1)),
        ('flush to zero', flushed(draw)),
        ('denormals are zero', denormals(draw)),
        ('precision limits', precisions(draw)),
        ('NaNs: signaling first', nans(0)),
        ('NaNs: first operand', nans(1)),
        ('NaNs: larger significand', nans(2)),
        ('NaNs: default NaN', nans(3)),
        ('infinities', infinities()),
        ('zeros and terms that cancel', zeros()),
        ('named formats', named_formats(draw)),
        ('Ieee, E from 2 to 28', many_formats(draw, IEEE)),
        ('NoInf, E from 2 to 28', many_formats(draw, NOINF)),
        ('Fnuz, E from 2 to 28', many_formats(draw, FNUZ)),
        ('Finite, E from 2 to 28', many_formats(draw, FINITE)),
        ('the same list in five orders', rearrangements(draw)),
        ('each refusal', each_refusal()),
        ('two refusals at once', two_refusals()),
        ('more refusals at once', more_refusals()),
    ]
    draw = Draw(28)
    made += [
        ('a named bias: examples', bias_examples()),
        ('a named bias: roundings of products', bias_roundings()),
        ('a named bias: overflow', bias_overflows()),
        ('a named bias: tiny results', bias_tiny()),
        ('a named bias: the greatest and the least', bias_ends()),
        ("a named bias: the kind's own", bias_own(draw)),
        ('a named bias: the same list in five orders', bias_orders(draw)),
        ('a named bias: refusals', bias_refusals()),
    ]
    made += mirror_sections()
    # every eighth accepted call gets a buffer of another length
    accepted = [case for _, cases in made for case in cases if not case.holds]
    for i, case in enumerate(accepted):
        case.room = 24 + i // 8 % 9 if i % 8 == 7 else 32
    return made


def texts(made):
    """The two files."""
    dots = lambda name: name + ' ' + '.' * (NAME - len(name) - 1)
    agreed = lambda name, n: '%s words %d, bytes %d, entries %d of %d agree\n' % (dots(name), n, n, n, n)
    stdin = '%02x\n' % len(made)
    for name, cases in made:
        biased = cases[0].named is not None
        assert all((case.named is not None) == biased for case in cases)
        most = LONG if any(len(case.right or []) > VALUES // 2 for case in cases) else VALUES
        letter = 'b' if biased else 'l' if most == LONG else 'r'
        stdin += '%s %s %04x\n' % (dots(name), letter, len(cases)) + ''.join(case.row(most) for case in cases)
    stdout = ''.join(agreed(name, len(cases)) for name, cases in made)
    stdout += agreed('all of these', sum(len(cases) for _, cases in made))
    for name, rows in pence_parts():
        stdin += '%04x\n' % len(rows) + ''.join(rows)
        stdout += dots(name) + ' %d of %d agree\n' % (len(rows), len(rows))
    # the program asks the entry with biases that are named by no 1 and are not 0, or by another number: each is refused with 3
    stdout += dots('pence of lists, a bias misnamed') + ' 8 of 8 agree\n'
    for name, rows in table_parts():
        stdin += '%04x\n' % len(rows) + ''.join(t.row() for t in rows)
        stdout += dots(name) + ' %d of %d agree\n' % (len(rows), len(rows))
    # the same of the entry of tables, and 2 where the buffer is too short besides
    stdout += dots('tables, a bias misnamed') + ' 8 of 8 agree\n'
    rows = ranges()
    stdin += '%04x\n' % len(rows) + ''.join(r.row() for r in rows)
    stdout += dots('amounts known within a range') + ' %d of %d agree\n' % (len(rows), len(rows))
    for name, rows, most, _ in page_parts():
        stdin += '%04x\n' % len(rows) + ''.join(r.row(most) for r in rows)
        stdout += dots(name) + ' %d of %d agree\n' % (len(rows), len(rows))
    rows = tens()
    stdin += '%04x\n' % len(rows) + ''.join(t.row() for t in rows)
    stdout += dots('values of ten bytes') + ' %d of %d agree\n' % (len(rows), len(rows))
    rows = several()
    stdin += '%04x\n' % len(rows) + ''.join(call.row() for call in rows)
    stdout += dots('one total, several formats') + ' %d of %d agree\n' % (len(rows), len(rows))
    rows = within()
    stdin += '%04x\n' % len(rows) + ''.join(call.row() for call in rows)
    stdout += dots('totals within an allowance of passes') + ' %d of %d agree\n' % (len(rows), len(rows))
    rows = reaches()
    stdin += '%04x\n' % len(rows) + ''.join(reach.row() for reach in rows)
    stdout += dots('contributions') + ' %d of %d agree\n' % (len(rows), len(rows))
    wrong = list(controls(stdin))
    stdin += ''.join('%04x\n' % len(rows) + ''.join(rows) for rows in wrong)
    stdout += dots('answers with one digit changed') + ' %d told as wrong\n' % sum(map(len, wrong))
    return stdin, stdout


# The last digits of a record's fields, as a function answers it; and of what an entry returns and writes
RECORD = (47, 50, 57, 67, 69, 71, 77)
ENTERED = (47, 50, 57, 75, 77)
# The kinds of rows, in the order of the control: the letters that a row begins with, its length, what row will do, and for each way of working it out the
# columns of the answer that it compares. Of a page that is written the columns lie behind its values.
CONTROLS = (
    *(('sd', length, lambda row: row[69] == '0', (RECORD, RECORD, ENTERED)) for length in (283, 487, 301)),
    *(('p', length, lambda row: row[45] == '0' and int(row[28:44], 16), ((27, 43, 45, 47),)) for length in (49, 67)),
    *(('p', length, lambda row: row[30] == '0' and int(row[13:29], 16), ((12, 28, 30, 32), (12, 28, 30))) for length in (283, 301)),
    *(('t', length, lambda row: row[69] == '0' and int(row[283:299], 16), (RECORD + (332,), ENTERED + (332,))) for length in (487, 505)),
    ('r', 487, lambda row: row[8:13] == '00 00' and '0' not in row[3:5], ((9, 46, 63, 298, 400), (12, 46, 63, 298, 400))),
    *(('g', length, lambda row: row[69] == '0', (RECORD, ENTERED)) for length in (530, 2306)),
    *(('w', length, lambda row: row[18:20] == '00' and int(row[2:4], 16), ((19, 'first', 'last'),)) for length in (791, 4279)),
    ('sd', 496, lambda row: int(row[73:76], 16) == 0, ((75, 159, 237),)),
    ('i', 1371, lambda row: row[42] == '0', ((42, 1163, 1369),)),
    ('sd', 1112, lambda row: int(row[73:76], 16) == 0, ((75, 400, 702),)),
    ('c', 383, lambda row: int(row[73:76], 16) == 0, ((21, 77, 111), (21, 77, 111), (75, 147, 177))),
)


def spoilt(row, column):
    """A row with one digit, or one sign, of the answer changed."""
    if column in ('first', 'last'):
        page = 22 + 16 * int(row[2:4], 16)
        column = page + 1 if column == 'first' else page + 2 * int(row[5:8], 16) - 1
    other = {'+': '-', '-': '+'}.get(row[column]) or '%x' % (int(row[column], 16) ^ 1)
    return row[:column] + other + row[column + 1:]


def controls(stdin):
    """The parts of the negative control, each with its rows, from the rows that stand in front of them."""
    lines = stdin.splitlines(keepends=True)
    for letters, length, will_do, ways in CONTROLS:
        row = next(line for line in lines if len(line) == length and line[0] in letters and will_do(line))
        for columns in ways:
            yield [spoilt(row, column) for column in columns]


def pence_parts():
    """The parts behind the sections, each with its name and its rows."""
    rows_of = lambda lists: [made.row() for made in lists]
    return [('pence of one encoding', pence_rows()), ('pence of one encoding, a bias named', biased_pence_rows()),
            ('pence of lists', rows_of(pence_lists())), ('pence of lists, a bias named', rows_of(biased_pence_lists()))]


def table_parts():
    """The parts of tables, each with its name and its rows."""
    return [('tables', tables()), ('tables, a bias named', biased_tables())]


def asked(binary, cases):
    """The oracle's answers: result, flags and passes."""
    text = ''.join(case.line() + '\n' for case in cases)
    answers = subprocess.run([binary, '--passes'], input=text, capture_output=True, text=True, check=True).stdout.split('\n')
    assert answers.pop() == '' and len(answers) == len(cases)
    return answers


def differs(record, answer):
    return answer != '%x %d %d' % (record.result, record.flags, record.passes)


def write(binary):
    made = sections()
    accepted = [(name, i + 1, case) for name, cases in made for i, case in enumerate(cases) if case.refusal == 0]
    totals = [(name, i + 1, case) for name, rows in table_parts() for i, t in enumerate(rows) if t.refusal == 0 for case in t.parts()]
    of_spans = [(name, i + 1, s.total) for name, rows, _, _ in page_parts()[:2] for i, s in enumerate(rows) if s.refusal == 0]
    answers = asked(binary, [case for _, _, case in accepted + totals + of_spans])
    for (name, i, case), answer in zip(accepted + totals + of_spans, answers):
        if differs(case, answer):
            sys.exit('%s, row %d: %s\n  oracle %s, model %x %d %d' % (name, i, case.line(), answer, case.result, case.flags, case.passes))
        result, flags, _ = answer.split()
        case.result, case.flags = int(result, 16), int(flags)
    of_tens = [(i + 1, t) for i, t in enumerate(tens()) if not t.holds]
    for (i, t), answer in zip(of_tens, asked(binary, [t for _, t in of_tens])):
        if differs(t.record, answer):
            sys.exit('values of ten bytes, row %d: %s\n  oracle %s, model %x %d %d' % (
                i, t.line(), answer, t.record.result, t.record.flags, t.record.passes))
    into, lists = several_asked(binary)
    full, unfinished = within_asked(binary)
    reached, missed = reaches_asked(binary)
    for file, text in zip(('stdin', 'stdout'), texts(made)):
        with open(os.path.join(HERE, file), 'w') as out:
            out.write(text)
    print(len(accepted), 'accepted rows with the answers of the oracle,', sum(len(cases) for _, cases in made) - len(accepted),
          'refused ones;', len(totals), 'totals of tables;', len(of_spans), 'of spans of pages;', len(of_tens), 'of values of ten bytes;', into,
          'targets, and the passes of', lists, 'of their lists;', full, 'totals in time, and', unfinished, 'that are not;', reached,
          'contributions, and', missed, 'wanted totals that none reaches')


def check():
    """Reads the list that stands there, and compares every answer with the model's."""
    with open(os.path.join(HERE, 'stdin')) as file:
        lines = file.readlines()
    wrong = rows = 0
    at = 1
    for _ in range(int(lines[0], 16)):
        name, letter, n = lines[at][:NAME].rstrip('. '), lines[at][NAME + 1], int(lines[at][NAME + 2:], 16)
        most = LONG if letter == 'l' else VALUES
        for i, row in enumerate(lines[at + 1:at + 1 + n]):
            rows += 1
            case = case_of(row, most, letter == 'b')
            if case.row(most) != row:
                wrong += 1
                print('%s, row %d (line %d):\n  listed %s\n  model  %s' % (name, i + 1, at + 2 + i, row[32:78], case.answer()))
        at += 1 + n
    again = lambda read, most: lambda row: read(row).row(most)
    for name, other in (('pence of one encoding', pence_again), ('pence of one encoding, a bias named', pence_again),
                        ('pence of lists', lambda row: list_of(row, False).row()), ('pence of lists, a bias named', lambda row: list_of(row, True).row()),
                        ('tables', lambda row: table_of(row, False).row()), ('tables, a bias named', lambda row: table_of(row, True).row()),
                        ('amounts known within a range', lambda row: range_of(row).row()),
                        *((name, again(read, most)) for name, _, most, read in page_parts()),
                        ('values of ten bytes', lambda row: tens_of(row).row()), ('one total, several formats', lambda row: several_of(row).row()),
                        ('totals within an allowance of passes', lambda row: within_of(row).row()),
                        ('contributions', lambda row: reach_of(row).row())):
        n = int(lines[at], 16)
        for i, row in enumerate(lines[at + 1:at + 1 + n]):
            rows += 1
            if row != other(row):
                wrong += 1
                print('%s, row %d (line %d):\n  listed %s  model  %s' % (name, i + 1, at + 2 + i, row, other(row)), end='')
        at += 1 + n
    # what stands behind them is held to what this script makes, below
    assert ''.join(lines[at:]) == ''.join('%04x\n' % len(part) + ''.join(part) for part in controls(''.join(lines[:at])))
    print(rows - wrong, 'of', rows, 'rows agree with the model')
    with open(os.path.join(HERE, 'stdout')) as file:
        same = texts(sections()) == (''.join(lines), file.read())
    print('stdin and stdout are those that this script makes' if same else 'stdin or stdout is not what this script makes')
    sys.exit(wrong != 0 or not same)


def known_formats(binary):
    """The oracle's formats: kind, E, W, and the bias of those that name one."""
    known = subprocess.run([binary, 'formats'], capture_output=True, text=True, check=True).stdout.split('\n')
    return [k for k in (tuple(map(int, row.split())) for row in known if row) if k[0] < 4]


def draw_more(binary, seed, count):
    known = known_formats(binary)
    draw = Draw(seed)
    cases = [drawn(draw, Format(*draw.choice(known)), (mixed, near_tie, cancelling, staircase, descent)) for _ in range(count)]
    wrong = [(case, answer) for case, answer in zip(cases, asked(binary, cases)) if differs(case, answer)]
    more = ten_drawn(draw, count // 4)
    wrong += [(t, answer) for t, answer in zip(more, asked(binary, more)) if differs(t.record, answer)]
    for case, answer in wrong:
        record = case.record if isinstance(case, Tens) else case
        print(case.line(), '| oracle', answer, '| model %x %d %d' % (record.result, record.flags, record.passes))
    print(len(cases), 'cases, and', len(more), 'with values of ten bytes,', len(wrong), 'wrong')
    sys.exit(wrong != [])


# ---- what the list reaches

def fewest(label, cases, keys, *sides):
    """Prints how many rows have one of the wanted keys, and the fewest that a key has."""
    wanted = list(product(*sides))
    seen = dict.fromkeys(wanted, 0)
    for case in cases:
        if keys(case) in seen:
            seen[keys(case)] += 1
    print('%5d  %s: %d kinds, no fewer than %d rows of each' % (sum(seen.values()), label, len(wanted), min(seen.values())))
    assert min(seen.values()) > 0


def cover():
    made = sections()
    pairs = len(mirror_sections())
    rows = [case for _, cases in made[:-pairs] for case in cases]
    cover_plain([case for case in rows if case.named is None])
    cover_biased([case for case in rows if case.named is not None])
    cover_mirrors(*(cases for _, cases in made[-pairs:]))
    cover_pence(pence_lists())
    cover_biased_pence(biased_pence_lists())
    cover_tables(tables() + biased_tables())
    cover_ranges(ranges())
    cover_pages(spans() + long_spans(), written_pages() + long_written())
    cover_tens(tens())
    cover_several(several())
    cover_within(within())
    cover_reaches(reaches())


def cover_plain(every):
    accepted = [case for case in every if case.refusal == 0]
    where = lambda test: [case for case in accepted if test(case)]
    modes, two, kinds = range(8), range(2), range(4)
    print('%5d  rows, %d of them accepted' % (len(every), len(accepted)))
    fewest('rounding, sign, side of a tie (below, on even, on odd, above)', accepted, lambda c: (c.c['rounding'], c.below_zero, c.side),
           modes, two, ('below', 'on', 'on odd', 'above'))
    fewest('rounding, sign, side of a boundary (below, on, above)', accepted, lambda c: (c.c['rounding'], c.below_zero, c.end),
           modes, two, ('below', 'on', 'above'))
    fewest('end of the chain (zero, exact, inexact, below, on, above)', accepted, lambda c: (c.end,), ('zero', 'exact', 'inexact', 'below', 'on', 'above'))
    fewest('sums by passes, 0 to 4', where(lambda c: not c.is_product()), lambda c: (c.passes,), range(5))
    fewest('dots and squares by passes, 0 to 7', where(Case.is_product), lambda c: (c.passes,), range(8))
    fewest('binary64 dots by passes, 0 to 7', where(lambda c: c.right is not None and (c.kind, c.e, c.w) == (0, 11, 64)), lambda c: (c.passes,), range(8))
    print('%5d  passes of the longest chain' % max(c.passes for c in accepted))
    fewest('overflow by kind, rounding, sign, saturation', where(lambda c: c.flags & OVERFLOW),
           lambda c: (c.kind, c.c['rounding'], c.below_zero, c.c['saturate']), kinds, modes, two, two)
    fewest('tiny by rounding, tininess, flush', where(lambda c: c.flags & TINY), lambda c: (c.c['rounding'], c.c['tininess'], c.c['flush']), modes, two, two)
    fewest('tiny by tininess, exact and inexact, not flushed', where(lambda c: c.flags & TINY and not c.c['flush']),
           lambda c: (c.c['tininess'], c.side == 'exact'), two, two)
    inward = {(DOWN, 0), (UP, 1), (TO_ZERO, 0), (TO_ZERO, 1)}
    never = {(mode, n, BELOW if n else ABOVE) for mode, n in inward} | {(mode, n, NO_COMPARISON) for mode, n in inward | {(TO_ODD, 0), (TO_ODD, 1)}}
    fewest('side by rounding, sign, where the two allow it', where(lambda c: c.passes), lambda c: ((c.c['rounding'], c.below_zero, c.leans),),
           [key for key in product(modes, two, range(4)) if key not in never])
    fewest('side of a sum flushed to zero, by sign', where(lambda c: c.flags & TINY and c.c['flush']), lambda c: ((c.below_zero, c.leans),),
           [(0, BELOW), (1, ABOVE)])
    fewest('side by denormals-are-zero, of a list with a subnormal operand', where(lambda c: c.flags & SUBNORMAL), lambda c: (c.c['daz'], c.leans),
           two, range(4))
    fewest('rounded at q below p, by rounding', where(lambda c: 0 < c.c['precision'] < c.w - c.e and c.side), lambda c: (c.c['rounding'],), modes)
    fewest('lists with a NaN, by rule and kind', where(Case.has_nan), lambda c: (c.c['nan'], c.kind), kinds, (IEEE, NOINF, FNUZ))
    fewest('lists with a subnormal operand, by denormals-are-zero', where(lambda c: c.flags & SUBNORMAL), lambda c: (c.c['daz'],), two)
    fewest('kind and E from 2 to 28', accepted, lambda c: (c.kind, c.e), kinds, range(2, 29))
    print('%5d  formats' % len({(c.kind, c.e, c.w) for c in accepted}))
    fewest('one refusal alone', [c for c in every if len(c.holds) == 1], lambda c: tuple(c.holds), (1, 2, 3, 4, 5, 7))
    fewest('two refusals at once, by pair', [c for c in every if len(c.holds) == 2], lambda c: (tuple(sorted(c.holds)),),
           list(combinations((1, 2, 3, 4, 5, 7), 2)))


def one_in(f):
    """Where 1 lies among the numbers of a format."""
    return 'below' if f.low > 0 else 'above' if f.emax < 0 else 'subnormal' if f.emin > 0 else 'normal'


def cover_biased(every):
    accepted = [case for case in every if case.refusal == 0]
    where = lambda test: [case for case in accepted if test(case)]
    modes, two, kinds, places = range(8), range(2), range(4), ('below', 'subnormal', 'normal', 'above')
    print('%5d  rows that name a bias, %d of them accepted' % (len(every), len(accepted)))
    fewest('kind and rounding', accepted, lambda c: (c.kind, c.c['rounding']), kinds, modes)
    fewest('sum, magnitudes, squares, dot', accepted, lambda c: ((c.right is not None) * 3 or c.summand,), range(4))
    fewest('1 below all numbers, subnormal, normal, above all numbers; by kind', accepted, lambda c: (one_in(c.format()), c.kind), places, kinds)
    fewest('products of which the least lies above the least number; square and dot', where(lambda c: c.is_product() and c.format().low > 0),
           lambda c: (c.right is not None,), (False, True))
    fewest('products by rounding, side of a tie (below, on even, on odd, above)', where(Case.is_product), lambda c: (c.c['rounding'], c.side),
           modes, ('below', 'on', 'on odd', 'above'))
    fewest('overflow by kind, saturation', where(lambda c: c.flags & OVERFLOW), lambda c: (c.kind, c.c['saturate']), kinds, two)
    fewest('tiny by kind, tininess', where(lambda c: c.flags & TINY), lambda c: (c.kind, c.c['tininess']), kinds, two)
    fewest('tiny and flushed, by tininess', where(lambda c: c.flags & TINY and c.c['flush']), lambda c: (c.c['tininess'],), two)
    fewest('lists with a subnormal operand, by denormals-are-zero', where(lambda c: c.flags & SUBNORMAL), lambda c: (c.c['daz'],), two)
    fewest('the greatest bias and the least, by kind, sum or product', accepted, lambda c: (c.named, c.kind, c.is_product()),
           (2 ** 28, -2 ** 28), kinds, (False, True))
    fewest("the kind's own, by kind", where(lambda c: c.named == own_bias(c.kind, c.e)), lambda c: (c.kind,), kinds)
    fewest('3 for the bias, alone and beside 1, 2, 4, 5 and 7', [c for c in every if abs(c.named) > LARGEST_BIAS],
           lambda c: (tuple(sorted(c.holds - {3})),), [(), (1,), (2,), (4,), (5,), (7,), (1, 2), (4, 5, 7), (1, 2, 4, 5, 7)])
    fewest('1, 2, 3, 4, 5 and 7 beside a bias in its range', [c for c in every if abs(c.named) <= LARGEST_BIAS],
           lambda c: tuple(c.holds), (1, 2, 3, 4, 5, 7))


def cover_mirrors(mirror, square, biased_mirror, biased_square):
    modes, two, kinds = range(8), range(2), range(4)
    every = mirror + biased_mirror
    where = lambda test: [case for case in every if test(case)]
    print('%5d  rows of lists and their mirrors' % len(every))
    fewest('mirrors by kind, rounding, sum or dot', every, lambda c: (c.kind, c.c['rounding'], c.right is not None), kinds, modes, (False, True))
    fewest('mirrors by sign, side', every, lambda c: (c.below_zero, c.leans), two, range(4))
    fewest('mirrors by passes, 1 to 3', every, lambda c: (c.passes,), range(1, 4))
    fewest('mirrors with an overflow, by kind', where(lambda c: c.flags & OVERFLOW), lambda c: (c.kind,), kinds)
    fewest('tiny mirrors, by tininess', where(lambda c: c.flags & TINY), lambda c: (c.c['tininess'],), two)
    fewest('mirrors with a subnormal operand, by denormals-are-zero', where(lambda c: c.flags & SUBNORMAL), lambda c: (c.c['daz'],), two)
    fewest('mirrors with a zero, by kind', where(lambda c: any(c.format().decode(b)[0] == 'zero' for b in c.left)), lambda c: (c.kind,), kinds)
    every = square + biased_square
    print('%5d  rows of square sums and dots of a list with itself' % len(every))
    fewest('squares by kind, rounding', where(lambda c: c.refusal == 0), lambda c: (c.kind, c.c['rounding']), kinds, modes)
    fewest('squares refused with 3, 4 and 7', where(lambda c: c.refusal), lambda c: (c.refusal,), (3, 4, 7))
    fewest('squares with an infinity, a zero, a subnormal number', where(lambda c: c.refusal == 0),
           lambda c: (next((what for what in ('infinity', 'zero') if any(c.format().decode(b)[0] == what for b in c.left)), c.flags & SUBNORMAL),),
           ('infinity', 'zero', SUBNORMAL))


def cover_pence_of(every):
    """What is asked of the lists without a bias and of those with one."""
    accepted = [made for made in every if made.refusal == 0]
    where = lambda test: [made for made in accepted if test(made)]
    holds = lambda made, what: any(made.format().decode(b)[0] == what for b in made.values)
    ties = [made for made in accepted if made.note.startswith('a tie')]
    kinds, two = range(4), (False, True)
    fewest('sign, side of a tie (on, less, more)', ties, lambda m: (m.figure < 0, m.note.split()[-1]), two, ('tie', 'less', 'more'))
    fewest('2^63 - 1 either way, by kind', where(lambda m: abs(m.figure) == LARGEST_PENCE), lambda m: (m.kind, m.figure < 0), kinds, two)
    fewest('a sum beyond the format that has a figure, by kind', where(List.is_beyond), lambda m: (m.kind,), kinds)
    fewest('another figure if the sum was rounded to the format first, by kind', where(lambda m: m.rounded_first() != m.answer), lambda m: (m.kind,), kinds)
    fewest('another figure if subnormal numbers were zeros, by kind', where(lambda m: m.without_subnormals() != m.answer), lambda m: (m.kind,), kinds)
    fewest('a sum below zero with the figure 0, by kind', where(lambda m: m.figure == 0 and m.total()[0] < 0), lambda m: (m.kind,), kinds)
    numbers = [made for made in every if made.refusal == 8 and not holds(made, 'nan') and not holds(made, 'infinity')]
    fewest('8 for the figure, by kind', numbers, lambda m: (m.kind,), kinds)
    fewest('8 for a NaN, by kind', [m for m in every if m.refusal == 8 and holds(m, 'nan')], lambda m: (m.kind,), (IEEE, NOINF, FNUZ))
    fewest('8 for an infinity and no NaN', [m for m in every if m.refusal == 8 and not holds(m, 'nan') and holds(m, 'infinity')], lambda m: (m.kind,), (IEEE,))
    fewest('3, 7', every, lambda m: (m.refusal,), (3, 7))
    return accepted


def cover_pence(every):
    print('%5d  lists with pence, %d of them accepted' % (len(every), sum(made.refusal == 0 for made in every)))
    accepted = cover_pence_of(every)
    fewest('kind and E from 2 to 28', accepted, lambda m: (m.kind, m.e), range(4), range(2, 29))
    fewest('number of values, 0 to 12', accepted, lambda m: (len(m.values),), range(13))


def cover_biased_pence(every):
    print('%5d  lists with pence and a named bias, %d of them accepted' % (len(every), sum(made.refusal == 0 for made in every)))
    accepted = cover_pence_of(every)
    fewest('1 below all numbers, subnormal, normal, above all numbers; by kind', [m for m in every if m.refusal in (0, 8)],
           lambda m: (one_in(m.format()), m.kind), ('below', 'subnormal', 'normal', 'above'), range(4))
    fewest('the greatest bias, by kind', accepted, lambda m: (m.named, m.kind), (2 ** 28,), range(4))
    fewest('the least bias, by kind, a sum of zero and refusal 8', every, lambda m: (m.named, m.kind, m.refusal), (-2 ** 28,), range(4), (0, 8))
    fewest("the kind's own, by kind", [m for m in accepted if m.named == own_bias(m.kind, m.e)], lambda m: (m.kind,), range(4))
    fewest('3 for the bias alone, and beside 7', [m for m in every if abs(m.named) > LARGEST_BIAS], lambda m: (bool(stray(m.w, m.values)),), (False, True))


# ---- pence

def pence_row(f, b):
    """An encoding with its figure in pence, refusal and place."""
    kind, e, w, bias = (*f, None)[:4] if isinstance(f, tuple) else (f.kind, f.e, f.w, f.named)
    figure, refusal, place = pence(kind, e, w, b, bias)
    assert sum_pence(kind, e, w, [b], bias) == (figure, refusal, place)
    text = 'p %x %02x %02x %016x %s %x %x' % (kind, e, w, b, signed(figure, 16), refusal, place)
    assert len(text) == 48
    return text + ('\n' if bias is None else ' %s\n' % signed(bias, 16))


def pence_again(row):
    """The row of the same encoding, with the model's answer."""
    number = lambda at, digits: int(row[at:at + digits], 16)
    return pence_row((number(2, 1), number(4, 2), number(7, 2), number(49, 17) if row[48] == ' ' else None), number(10, 16))


def pence_beside(f, m, x):
    """m * 2^x and its negative, and the encodings beside them."""
    b = f.number(0, m, x)
    return [pence_row(f, near + sign) for near in (b, b - 1, b + 1) for sign in (0, f.sign)]


def pence_rows():
    rows = []
    add = lambda f, b: rows.append(pence_row(f, b))
    both = lambda f, m, x: rows.extend(pence_beside(f, m, x))
    add(DOUBLE, 0x3fc0000000000000)
    add(DOUBLE, 0xbfc0000000000000)
    assert pence(0, 11, 64, 0x3fc0000000000000) == (13, 0, 0)
    # ties: odd multiples of 1/8
    for m in (1, 3, 5, 7, 9, 1001, 2 ** 40 + 1):
        both(DOUBLE, m, -3)
    for kind in range(4):
        for e, w in ((5, 16), (8, 32), (4, 8)):
            both(Format(kind, e, w), 1, -3)
    # the largest figures: 92,233,720,368,547,758 pounds where a pound is a unit of the last place, less elsewhere
    for f in ((0, 7, 64), (1, 7, 64), (3, 7, 64), (0, 11, 64), (2, 8, 64), (0, 8, 32), (3, 15, 64), (0, 28, 64), (1, 9, 64)):
        f, m = Format(*f), LARGEST_PENCE // 100
        drop = max(0, m.bit_length() - f.p)
        both(f, m >> drop, drop)
    assert pence(0, 7, 64, Format(0, 7, 64).number(0, LARGEST_PENCE // 100, 0)) == (9223372036854775800, 0, 0)
    assert pence(0, 7, 64, Format(0, 7, 64).number(0, LARGEST_PENCE // 100 + 1, 0)) == (0, 8, 0)
    # zeros, the least and the largest numbers, NaNs and infinities of many formats
    for kind in range(4):
        for e, w in ((2, 4), (2, 64), (3, 6), (5, 8), (8, 16), (11, 64), (15, 41), (28, 30), (28, 64)):
            f = Format(kind, e, w)
            some = [0, f.sign, 1, f.largest(0, f.p), f.largest(1, f.p), f.sign + (1 << f.fraction) - 1]
            some += [f.infinity(0), f.infinity(1), f.nan(0, 0), f.nan(1, 0), f.infinity(1) + 1] if kind == IEEE else [f.sign - 1, 2 * f.sign - 1]
            for b in some:
                add(f, b)
    # refusals 3 and 7, and 3 before 7 before 8
    for f, b in (((4, 11, 64), 1), ((0, 1, 16), 0x7c00), ((0, 29, 64), 0), ((0, 11, 12), 1 << 12), ((1, 11, 65), 1), ((15, 5, 16), STRAY),
                 (HALF, STRAY), (HALF, 0x17e00), (HALF, 1 << 63), ((1, 4, 8), 0x17f), ((2, 4, 8), 0x180), ((3, 2, 4), 16), ((0, 2, 63), 1 << 63)):
        add(f, b)
    # amounts, and any encodings
    draw = Draw(100)
    for i in range(60):
        f = Format(i % 4, *((5, 16), (8, 32), (11, 64), (7, 64), (8, 19))[i % 5])
        e = draw.between(max(f.emin, -9), min(f.emax - 1, 57))
        add(f, power(f, e, draw.bits(1), draw.bits(f.fraction)))
    for i in range(108):
        e = 2 + i // 4
        f = Format(i % 4, e, draw.choice(widths(e)))
        add(f, draw.bits(f.w))
    return rows


def biased_pence_rows():
    """The same with a named bias."""
    rows = []
    add = lambda f, b: rows.append(pence_row(f, b))
    # 30 in E4M3B11FNUZ, and 32 in E2M1
    for f, b, figure in (((2, 4, 8, 11), 0x7f, 3000), ((2, 4, 8, 11), 0xff, -3000), ((3, 2, 4, -3), 4, 3200), ((3, 2, 4, -3), 12, -3200)):
        assert pence(*f[:3], b, f[3]) == (figure, 0, 0)
        add(f, b)
    # the greatest bias and the least: less than half a penny, or too much; with E 28 the greatest leaves numbers just below 1
    for kind, bias in product(range(4), (2 ** 28, -2 ** 28)):
        f = Format(kind, *((11, 64), (5, 16), (4, 8))[kind % 3], bias)
        for b in (1, f.largest(1, f.p)):
            add(f, b)
        f = Format(kind, 28, (64, 30)[kind % 2], bias)
        for b in (f.largest(0, f.p), f.sign + 1):
            add(f, b)
    # infinities and NaNs
    for f, b in (((0, 5, 16, 0), 0x7c00), ((0, 5, 16, -2 ** 28), 0xfe00), ((1, 4, 8, 40), 0x7f), ((2, 4, 8, -40), 0x80)):
        add(f, b)
    # the kind's own
    for kind in range(4):
        f = Format(kind, 11, 64, own_bias(kind, 11))
        b = power(f, 6, kind % 2, 0x123456789abcd)
        assert pence(kind, 11, 64, b, f.named) == pence(kind, 11, 64, b)
        add(f, b)
    # ties, odd multiples of 1/8; and the largest figures
    for f, m in (((0, 5, 16, 0), 1), ((1, 4, 8, 1), 1), ((2, 11, 64, -40), 3), ((3, 11, 64, 2000), 1001)):
        rows += pence_beside(Format(*f), m, -3)
    for f in ((0, 11, 64, 40), (3, 7, 64, 20)):
        f, m = Format(*f), LARGEST_PENCE // 100
        drop = max(0, m.bit_length() - f.p)
        rows += pence_beside(f, m >> drop, drop)
    # refusals 3 and 7, and 3 before 7 before 8
    for f, b in (((0, 5, 16, 2 ** 28 + 1), ONE), ((0, 5, 16, -2 ** 28 - 1), ONE), ((2, 4, 8, 2 ** 63 - 1), 0x7f), ((2, 4, 8, 1 - 2 ** 63), 0x180),
                 ((1, 4, 8, 2 ** 32 + 7), 0x17f), ((4, 11, 64, 0), 1), ((0, 5, 6, -40), STRAY), ((0, 5, 16, 40), STRAY), ((0, 5, 16, -40), 0x17e00),
                 ((3, 2, 4, -3), 16)):
        add(f, b)
    return rows


# ---- the pence of lists

class List:
    """A list with its figure in pence, refusal and place, and a note of what it is."""

    def __init__(self, f, values, note):
        self.f = (*f, None)[:4] if isinstance(f, tuple) else (f.kind, f.e, f.w, f.named)
        self.kind, self.e, self.w, self.named = self.f
        self.values, self.note = values, note
        self.answer = sum_pence(*self.f[:3], values, self.named)
        self.figure, self.refusal, self.place = self.answer
        # one element has the pence of its encoding
        assert len(values) != 1 or self.answer == pence(*self.f[:3], values[0], self.named)

    def format(self):
        return Format(*self.f)

    def total(self):
        """The exact sum, as a whole number and the position of its unit."""
        terms, _ = sum_terms(VALUE, [self.format().decode(b) for b in self.values])
        low = min((x for _, _, x in terms), default=0)
        return sum((-m if negative else m) << (x - low) for negative, m, x in terms), low

    def rounded(self):
        """The sum, rounded to the format, and the flags of that."""
        total, low = self.total()
        return round_once(self.format(), PLAIN, int(total < 0), abs(total), low)[:2] if total else (0, 0)

    def is_beyond(self):
        return bool(self.rounded()[1] & OVERFLOW)

    def rounded_first(self):
        """The pence of the rounded sum, which is the plain way."""
        return pence(*self.f[:3], self.rounded()[0], self.named)

    def without_subnormals(self):
        f = self.format()
        return sum_pence(*self.f[:3], [b for b in self.values if not f.is_subnormal(f.decode(b))], self.named)

    def row(self):
        assert len(self.values) <= VALUES and len(self.note) <= NAME
        text = 'p %x %02x %02x %x %s %x %x %-*s' % (
            self.kind, self.e, self.w, len(self.values), signed(self.figure, 16), self.refusal, self.place, NAME, self.note)
        text = ' '.join([text] + ['%016x' % v for v in self.values + [0] * (VALUES - len(self.values))])
        assert len(text) == BIAS - 1
        return text + ('\n' if self.named is None else ' %s\n' % signed(self.named, 16))


def list_of(row, biased):
    """The list of a row, with the model's answer."""
    number = lambda at, digits: int(row[at:at + digits], 16)
    values = [number(at, 16) for at in range(HEAD, HEAD + 17 * number(10, 1), 17)]
    return List((number(2, 1), number(4, 2), number(7, 2), number(BIAS, 17) if biased else None), values, row[34:34 + NAME].rstrip())


def pieces(f, negative, n, x):
    """n * 2^x as numbers of the format, the highest digits first."""
    values = []
    while n:
        drop = max(0, n.bit_length() - f.p)
        values.append(f.number(negative, n >> drop, x + drop))
        n %= 1 << drop
    return values


def can_have(f, x):
    """Whether 2^x is a number of the format."""
    return f.low <= x <= f.emax - (f.kind == NOINF)


def pence_examples():
    """Worked out by hand; the first was given."""
    at = lambda n, negative=0: power(DOUBLE, n, negative)
    eighth, big, minus, inf = at(-3), 0x7fefffffffffffff, 1 << 63, 0x7ff0000000000000
    rows = [
        (DOUBLE, [eighth, at(-60, 1)], '0.125 less a trace', (12, 0, 0)),
        (DOUBLE, [eighth], '0.125 alone', (13, 0, 0)),
        (DOUBLE, [eighth, at(-60)], '0.125 and 2^-60', (13, 0, 0)),
        (DOUBLE, [eighth + minus, at(-60)], '-0.125 and 2^-60', (-12, 0, 0)),
        (DOUBLE, [eighth + minus], '-0.125 alone', (-13, 0, 0)),
        (DOUBLE, [eighth, inf], '0.125 and an infinity', (0, 8, 0)),
        (HALF, [0x7bff, 0x7bff], 'beyond binary16', (13100800, 0, 0)),
        (HALF, [0x7b00, 0x7b00], 'beyond binary16', (11468800, 0, 0)),
        (HALF, [0xfbff] * 12, 'beyond binary16, twelve times', (-78604800, 0, 0)),
        (HALF, [0x7e00, STRAY], 'a NaN, and a stray bit behind it', (0, 7, 1)),
        (DOUBLE, [], 'nothing', (0, 0, 0)),
        (DOUBLE, [0, minus, minus], 'zeros', (0, 0, 0)),
        (DOUBLE, [minus], '-0', (0, 0, 0)),
        (DOUBLE, [minus + 1], '-2^-1074', (0, 0, 0)),
        (DOUBLE, [1], '2^-1074', (0, 0, 0)),
        (DOUBLE, [at(0), at(0, 1)], '1 and -1', (0, 0, 0)),
        (DOUBLE, [at(1000), eighth, at(1000, 1)], '0.125 beside huge amounts that cancel', (13, 0, 0)),
        (DOUBLE, [at(1000), eighth, at(1000, 1), minus + 1], 'the same, and 2^-1074 less', (12, 0, 0)),
        (DOUBLE, [big, minus + big, eighth + minus], '-0.125 beside the largest that cancel', (-13, 0, 0)),
        (DOUBLE, [big, big, minus + big, minus + big, eighth], 'a sum beyond binary64 on the way', (13, 0, 0)),
        (DOUBLE, [big], 'the largest number', (0, 8, 0)),
        (DOUBLE, [big, big], 'beyond binary64', (0, 8, 0)),
        (DOUBLE, [at(56)], '2^56, a figure of 100 x 2^56', (7205759403792793600, 0, 0)),
        (DOUBLE, [at(56), at(56)], '2^57, too large', (0, 8, 0)),
        (DOUBLE, [at(57), at(56, 1)], '2^57 - 2^56', (7205759403792793600, 0, 0)),
        (DOUBLE, [power(DOUBLE, -8, 1, 0x47ae147ae147b)], 'more than half a penny, negative', (-1, 0, 0)),
        (DOUBLE, [power(DOUBLE, -8, 1, 0x47ae147ae147a)], 'less than half a penny, negative', (0, 0, 0)),
        ((3, 2, 4), [1, 3], '0.5 and 1.5', (200, 0, 0)),
        ((3, 2, 4), [1] * 12, 'twelve times a subnormal number', (600, 0, 0)),
        ((2, 4, 8), [0x7f, 0x7f], '240 twice, beyond E4M3FNUZ', (48000, 0, 0)),
        ((1, 4, 8), [0x7e, 0x7e], '448 twice, beyond E4M3', (89600, 0, 0)),
        ((3, 2, 4), [7] * 12, '6 twelve times, beyond E2M1', (7200, 0, 0)),
    ]
    lists = []
    for f, values, note, answer in rows:
        lists.append(List(f, values, note))
        assert lists[-1].answer == answer, (note, lists[-1].answer)
    return lists


# positions below a tie: beside a format's digits, the 64 of the chain and its margins, and the window's ends
TRACES = (4, 5, 10, 24, 53, 57, 60, 61, 62, 63, 64, 65, 66, 67, 70, 71, 72, 128, 130, 131, 134, 135, 500, 565, 566, 570, 573, 574, 635, 636, 637, 638, 639,
          640, 641, 698, 699, 700, 701, 702, 703, 704, 705, 706, 764, 765, 766, 767, 768, 769, 1000, 1022, 1023, 1073, 1074)


def pence_ties(formats, traces):
    """Odd multiples of 1/8, which are ties: alone, and with a trace that makes them more or less. Every trace is a number of the format."""
    lists = []
    for i, f in enumerate(formats):
        if not can_have(f, -3):
            continue
        multiples = [m for m in (1, 3, 5, 1001, 2 ** 40 + 1, 2 ** 57 + 5, 2 ** 59 - 7) if can_have(f, m.bit_length() - 4)]
        for negative, m in product(range(2), multiples if f is DOUBLE else sorted({multiples[0], multiples[-1]})):
            lists.append(List(f, pieces(f, negative, m, -3), 'a tie'))
        down = [j for j in traces if can_have(f, -3 - j)] + [-3 - f.low] * (f.low < -3)
        for j, less in product(down, range(2)):
            turn = len(lists)
            negative, m = turn // 2 % 2, multiples[(turn // 4 + i) % len(multiples)]
            values = pieces(f, negative, m, -3) + [f.number(negative ^ less, 1, -3 - j)]
            values = values[::-1] if turn % 3 == 0 else values
            lists.append(List(f, values, 'a tie, and 2^-%d %s' % (3 + j, 'less' if less else 'more')))
            assert abs(lists[-1].figure) == (100 * m + 4 >> 3) - less or j <= 10
    return lists


def pence_limits(formats):
    """The figures 2^63 - 1 and 2^63 - 2 of either sign, on grids of 2^-k: the greatest sum and the least that round to the first, and the sums
    beside them. And the greatest below 2^64 pence: to the nearest it is 2^64, which is no word."""
    lists = []
    for f, k in formats:
        # 100 times n * 2^-k lies below 2^63 - 1/2; and is 2^63 - 3/2 or more
        most, least = ((2 ** 64 - 1 << k) - 1) // 200, -(-(2 ** 64 - 3 << k) // 200)
        wide = ((2 ** 64 << k) - 1) // 100
        for negative in range(2):
            for n, note in ((most, 'the greatest figure, 2^63 - 1'), (most + 1, 'one more'), (least, 'the least that rounds to it'), (least - 1, 'one less'),
                            (wide, 'the greatest below 2^64 pence')):
                lists.append(List(f, pieces(f, negative, n, -k), note))
                figure = {most + 1: 0, least - 1: LARGEST_PENCE - 1, wide: 0}.get(n, LARGEST_PENCE)
                assert lists[-1].answer == (-figure if negative else figure, 8 * (figure == 0), 0)
    return lists


def pence_beyond(formats):
    """Sums beyond the format that have a figure, and one of largest numbers that cancel but for a tie."""
    lists = []
    for i, f in enumerate(formats):
        large, n = f.largest(i % 2, f.p), (2, 3, 12)[i % 3]
        lists.append(List(f, [large] * n, 'the largest number, %d times' % n))
        least = [f.number(0, 1, max(-3, f.low))] if max(-3, f.low) < f.emax else []
        lists.append(List(f, [large] * 5 + least + [large ^ f.sign] * 5, 'the largest numbers cancel'))
        lists.append(List(f, [large ^ f.sign, large, large], 'one more than cancels'))
    return lists


def pence_subnormal(formats):
    """Subnormal numbers alone and beside others; a setting that takes them as zeros would change the figure of some."""
    lists = []
    for i, f in enumerate(formats):
        greatest = (1 << f.fraction) - 1
        lists.append(List(f, [greatest, 1, greatest], 'subnormal numbers'))
        lists.append(List(f, [greatest + f.sign] * (i % 12 + 1), 'a subnormal number, %d times' % (i % 12 + 1)))
        lists.append(List(f, [power(f, f.emin), greatest + f.sign], 'normal less subnormal'))
    return lists


def pence_cancelling(formats):
    """Terms that cancel at both ends of a format, with nothing left, with half a penny, and with less."""
    lists = []
    for i, f in enumerate(formats):
        high, low = power(f, f.emax - 1, i % 2, 1), [1, f.sign + 1]
        lists.append(List(f, [high, *low, high ^ f.sign], 'all cancels'))
        if can_have(f, -3):
            tie = f.number(i // 2 % 2, 1, -3)
            lists.append(List(f, [high, tie, high ^ f.sign], 'huge amounts cancel beside a tie'))
            lists.append(List(f, [high, tie, low[1 - (i // 2 % 2)], high ^ f.sign], 'huge amounts cancel beside less than a tie'))
        lists.append(List(f, [high, low[1], high ^ f.sign], 'a negative trace is left'))
    return lists


def pence_orders(draw, formats):
    """Lists in five orders, one figure for each."""
    lists = []
    for i, f in enumerate(formats):
        values = []
        while len(set(values)) < 3:
            values = (pence_near_tie, pence_sum, pence_amounts)[i % 3](draw, f)
        group = [List(f, order, 'five orders, list %d' % (i + 1))
                 for order in (values, values[::-1], sorted(values), draw.shuffled(values), draw.shuffled(values))]
        assert len({other.answer for other in group}) == 1
        lists += group
    return lists


def pence_refusals(bias):
    """3 in each way, 7 at the lowest index, 7 before 8, 8 for NaNs and infinities of each kind and beside huge amounts. (A figure too large stands with the
    limits.)"""
    lists = []
    add = lambda f, values, note: lists.append(List((*f[:3], bias if len(f) == 3 else f[3]), values, note))
    for i, f in enumerate(((4, 11, 64), (15, 5, 16), (0, 1, 16), (0, 0, 0), (1, 29, 64), (2, 29, 31), (3, 11, 12), (0, 2, 3), (0, 11, 65), (2, 28, 255),
                           (1, 255, 64), (4, 1, 65))):
        add(f, ([], [ONE], [ONE, (1 << 64) - 1])[i % 3], 'no such format')
    if bias is not None:
        for far in (2 ** 28 + 1, -2 ** 28 - 1, 2 ** 63 - 1, 1 - 2 ** 63, 2 ** 32 + 15, -2 ** 32 - 15):
            for values in ([], [ONE, ONE], [STRAY, 0x7e00]):
                add((*HALF, far), values, 'a bias out of its range')
    for kind, (e, w) in product(range(4), ((4, 8), (5, 16), (11, 63))):
        nan = (1 << w) - 1 if kind != FNUZ else 1 << w - 1
        add((kind, e, w), [1, 1 << w], 'a stray bit, and a number before it')
        add((kind, e, w), [nan, 1 << w, nan, 1 << 63, (1 << w) + 1], 'stray bits: the lowest index; NaNs')
        add((kind, e, w), [0] * 11 + [1 << 63], 'a stray bit in the last place')
        add((kind, e, w), [nan] * 3 + [(1 << 64) - 1], 'a stray bit behind NaNs')
    for e, w in ((2, 4), (5, 16), (11, 64), (28, 30)):
        f = Format(IEEE, e, w, bias)
        inf, big = f.infinity(0), f.largest(0, f.p)
        some = [([inf], 'an infinity'), ([big, f.infinity(1)], 'a negative infinity'), ([inf, f.infinity(1)], 'infinities of both signs'),
                ([f.nan(0, 0)], 'a quiet NaN'), ([0, 0, f.nan(1, 0)], 'a negative NaN'), ([big, inf + 1, big ^ f.sign], 'a NaN amid what cancels'),
                ([f.infinity(1) + 1, inf], 'a NaN and an infinity')]
        for values, note in some:
            add((IEEE, e, w), values, note)
    for (kind, nans), (e, w) in product(((NOINF, 2), (FNUZ, 1)), ((2, 4), (4, 8), (11, 64))):
        f = Format(kind, e, w, bias)
        for negative in range(nans):
            b = f.nan(negative, 0)
            add((kind, e, w), [b], 'the NaN')
            add((kind, e, w), [f.largest(0, f.p), f.largest(1, f.p), b], 'the NaN behind what cancels')
    # all ones are a number of these
    for kind in (FNUZ, FINITE):
        add((kind, 4, 8), [0x7f, 0xff], 'all ones are numbers')
        add((kind, 4, 8), [0x7f, 0x7f, 0x7f], 'all ones are numbers')
    return lists


def pence_amounts(draw, f):
    """Amounts in the range of a figure."""
    low = min(max(f.emin, -9), f.emax - 1)
    top = draw.choice([8, 16, 30, 57])
    return [power(f, draw.between(low, max(low, min(f.emax - 1, top))), draw.bits(1), draw.bits(f.fraction)) for _ in range(draw.below(VALUES + 1))]


def pence_near_tie(draw, f):
    """A multiple of an eighth, odd or even, what is a little more or less, and what cancels."""
    if not can_have(f, -3):
        return pence_amounts(draw, f)
    bits = draw.between(1, max(1, min(56, f.emax + 2)))
    values = pieces(f, draw.bits(1), draw.bits(bits) | draw.bits(1) | 1 << bits - 1, -3)[:5]
    at = -3
    for _ in range(draw.below(4)):
        at -= draw.choice(STEPS + (draw.between(1, 2000),))
        values.append(power(f, at, draw.bits(1), draw.choice([0, 0, draw.bits(f.fraction)])))
    if draw.bits(1):
        huge = power(f, f.emax - 1 - draw.below(40), draw.bits(1), draw.bits(f.fraction))
        values += [huge, huge ^ f.sign]
    return draw.shuffled(values)


def pence_sum(draw, f):
    """Any values, most of them with their negatives."""
    near = draw.choice([0, 1, f.ones - 1, f.bias, draw.bits(f.e)])
    values = [any_value(draw, f, near) for _ in range(draw.below(6))]
    values += [v ^ f.sign for v in values if draw.chance(60)]
    return draw.shuffled(values + pence_amounts(draw, f)[:draw.below(2)])


def pence_drawn(draw, f):
    """A list of one of the three, none with terms too far apart."""
    while True:
        values = draw.choice((pence_amounts, pence_near_tie, pence_near_tie, pence_sum))(draw, f)
        terms, top = sum_terms(VALUE, [f.decode(v) for v in values])
        if top - min((x for _, _, x in terms), default=top) <= WIDEST:
            return List(f, values, 'drawn')


def pence_lists():
    draw = Draw(200)
    every = lambda *pairs: [Format(kind, *pair) for kind in range(4) for pair in pairs]
    lists = pence_examples()
    lists += pence_ties([DOUBLE], TRACES)
    lists += pence_ties(every((4, 8), (5, 16), (8, 32), (7, 64), (3, 64), (2, 64)), (4, 53, 64))
    lists += pence_ties([Format(kind, 11, 64) for kind in (1, 2, 3)] + every((11, 24), (15, 64)), (53, 64, 66, 702))
    # down to 2^-134217728 and below: the farthest from a penny without a named bias
    lists += pence_ties(every((28, 64)), (60, 1400))
    lists += pence_limits([(f, k) for f in every((11, 64)) for k in (7, 400)] + [(Format(i % 4, *pair), k) for i, (*pair, k) in enumerate(
        ((7, 64, 8), (8, 32, 60), (15, 41, 100), (28, 64, 60), (8, 32, 8), (15, 41, 8), (28, 64, 300), (7, 64, 60)))])
    lists += pence_beyond(every((2, 4), (3, 6), (4, 8), (5, 16), (2, 64), (5, 64), (6, 24), (6, 64)))
    lists += pence_subnormal(every((2, 4), (2, 64), (3, 6), (4, 8), (5, 16), (11, 64)))
    lists += pence_cancelling(every((4, 8), (5, 16), (8, 32), (11, 64), (15, 64), (20, 53)))
    lists += pence_orders(draw, [Format(i % 4, *((11, 64), (8, 32), (5, 16), (7, 64), (15, 47))[i % 5]) for i in range(24)])
    lists += pence_refusals(None)
    lists += [pence_drawn(draw, Format(kind, e, w)) for kind in range(4) for e in range(2, 29) for w in (e + 2, 64, draw.choice(widths(e)))]
    lists += [pence_drawn(draw, Format(i % 4, *PAIRS[i % 7])) for i in range(140)]
    return lists


def biased_pence_lists():
    """The same with a named bias."""
    draw = Draw(300)
    lists = []
    for f, values, note, answer in (
            ((2, 4, 8, 11), [0x7f, 0x7f], '30 twice', (6000, 0, 0)),
            ((3, 2, 4, -3), [1, 3], '8 and 24', (3200, 0, 0)),
            ((0, 5, 16, -5), [1], 'the least number is 1/16', (6, 0, 0)),
            ((0, 5, 16, -5), [1, 1], 'twice 1/16: a tie', (13, 0, 0)),
            ((0, 5, 16, -5), [0x8001, 0x8001], 'twice -1/16', (-13, 0, 0)),
            ((0, 5, 16, -2000), [1], 'the least number is 2^1991', (0, 8, 0)),
            ((0, 5, 16, -2000), [1, 0x8001], '2^1991 and its negative', (0, 0, 0)),
            ((0, 5, 16, 0), [0x7bff, 0x7bff], 'the largest number, 2^15 times that of binary16', (429287014400, 0, 0)),
            ((0, 5, 16, 60), [0xfbff] * 12, 'less than half a penny', (0, 0, 0))):
        lists.append(List(f, values, note[:NAME]))
        assert lists[-1].answer == answer, (note, lists[-1].answer)
    # the greatest and the least: a sum that is not zero is less than half a penny, or too large
    for kind, bias, (e, w) in product(range(4), (2 ** 28, -2 ** 28), ((11, 64), (5, 16), (28, 30))):
        f = Format(kind, e, w, bias)
        large, sign = f.largest(kind % 2, f.p), f.sign
        for values, note in (([large, large], 'the largest number twice'), ([sign + 1], 'the least number, negative'),
                             ([1, large, large ^ sign, 1], 'the least number is left'), ([1, large, sign + 1, large ^ sign], 'all cancels')):
            lists.append(List(f, values, note))
            if e < 28:
                zero = bias > 0 or note == 'all cancels'
                assert lists[-1].answer == (0, 0 if zero else 8, 0)
    # at the kind's own, what the list has without a name
    for kind, i in product(range(4), range(6)):
        f = Format(kind, *((11, 64), (5, 16), (8, 32))[i % 3])
        plain = pence_drawn(draw, f)
        lists.append(List((*plain.f[:3], f.bias), plain.values, "the kind's own"))
        assert lists[-1].answer == plain.answer
    some = lambda *pairs: [Format(i % 4, *pair) for i, pair in enumerate(pairs)]
    near = ((5, 16, 0), (4, 8, 1), (11, 64, -40), (8, 32, 3), (4, 8, 11), (5, 16, 40), (11, 64, 2000), (7, 64, 20), (2, 64, 4), (3, 6, 5), (8, 24, 100))
    lists += pence_ties(some(*near), (5, 53, 64, 66, 700))
    lists += pence_limits([(f, k) for f in some((11, 64, 40), (7, 64, 20), (11, 64, 1500), (8, 32, 190), (15, 64, -900), (12, 64, 500)) for k in (8, 52)
                           if f.low <= -k and f.emax > 57])
    lists += pence_beyond(some((4, 8, 7), (5, 16, 20), (3, 6, -1), (2, 4, 0), (5, 16, -20), (4, 8, -9), (5, 64, 3), (2, 64, -40)))
    lists += pence_subnormal(some((5, 16, -5), (4, 8, -4), (11, 64, -1000), (11, 64, 900), (3, 6, -30), (2, 4, -3), (8, 32, -55), (2, 64, -2)))
    lists += pence_cancelling(some((4, 8, 1), (5, 16, 0), (11, 64, -40), (11, 64, 1900), (8, 32, -300), (15, 64, 9000), (5, 16, -2000), (4, 8, 2000)))
    lists += pence_orders(draw, some(*near))
    lists += pence_refusals(-7)
    lists += [pence_drawn(draw, Format(i % 4, e, w, bias)) for i, (e, w, bias) in enumerate(near * 8)]
    return lists


# ---- tables

class Table:
    """A table, the lengths of the lists and of the buffer that are lent for its totals, and what it answers."""

    def __init__(self, f, c, rows, columns, cells, lent=None, room=32):
        self.f = (*f, None)[:4] if isinstance(f, tuple) else (f.kind, f.e, f.w, f.named)
        self.kind, self.e, self.w, self.named = self.f
        self.c, self.rows, self.columns, self.cells, self.room = {**PLAIN, **c}, rows, columns, cells, room
        self.lent = lent or (rows, columns)
        self.holds = table_conditions(*self.f, self.c, rows, columns, cells, self.lent, room)
        first, own = (next((n for n in order if n in self.holds), 0) for order in (TABLE_ORDER, TABLE_ORDER[1:]))
        self.refusal, self.place = own, stray(self.w, cells)[0] if own == 7 else 0
        self.returned = first + 256 * self.place * (first == 7)
        # each total is that of a plain sum, and so is the record
        total = lambda values: Case(self.f, self.c, values)
        self.of_rows, self.of_columns = ([total(part) for part in parts] for parts in (((), ()) if own else table_lists(rows, columns, cells)))
        self.grand = total([] if own else cells)
        self.totals = [case.result for case in self.of_rows + self.of_columns]

    def parts(self):
        """The plain sums of an accepted table."""
        return [self.grand] + self.of_rows + self.of_columns

    def row(self):
        g = Record(0, 0) if self.refusal else self.grand
        assert len(self.cells) <= VALUES and len(self.totals) <= MOST_TOTALS and max(self.lent) <= 15
        text = 't %x %02x %02x %s %02x %x %x%x -- %02x %016x %02x %06x %s %x %x %03x %x' % (
            self.kind, self.e, self.w, ''.join('%x' % self.c[name] for name in SETTINGS[:7]), self.c['precision'], len(self.cells), *self.lent, self.room,
            g.result, g.flags, g.passes, signed(g.edge, 8), self.refusal, self.place, self.returned, g.leans)
        assert len(text) == HEAD - 1
        filled = lambda words, most: words + [0] * (most - len(words))
        text = ' '.join([text] + ['%016x' % v for v in filled(self.cells, VALUES) + [self.rows, self.columns] + filled(self.totals, MOST_TOTALS)])
        return text + ('\n' if self.named is None else ' %s\n' % signed(self.named, 16))


def table_of(row, biased):
    """The table of a row, with the model's answer."""
    number = lambda at, digits: int(row[at:at + digits], 16)
    c = {name: number(10 + i, 1) for i, name in enumerate(SETTINGS[:7])}
    c['precision'] = number(18, 2)
    cells = [number(HEAD + 17 * i, 16) for i in range(number(21, 1))]
    f = number(2, 1), number(4, 2), number(7, 2), number(TABLE, 17) if biased else None
    return Table(f, c, number(BIAS, 16), number(BIAS + 17, 16), cells, (number(23, 1), number(24, 1)), number(29, 2))


MINUS_ONE, MANY = 0xbc00, 2 ** 64 - 1


def table_examples():
    """Worked out by hand, in binary16: the totals of the rows, those of the columns, the grand total and its flags."""
    big, minus, inf, two, three = 0x7bff, 0x8000, 0x7c00, 0x4000, 0x4200
    rows = [
        ({}, 2, 3, [ONE, two, three, ONE, ONE, ONE], [0x4600, three], [two, three, 0x4400], 0x4880, 0),
        ({}, 3, 2, [ONE, two, three, ONE, ONE, ONE], [three, 0x4400, two], [0x4500, 0x4400], 0x4880, 0),
        # empty rows and columns are +0, toward negative too
        ({'rounding': DOWN}, 3, 0, [], [0, 0, 0], [], 0, 0),
        ({'rounding': DOWN}, 0, 3, [], [], [0, 0, 0], 0, 0),
        ({'rounding': DOWN}, 0, 0, [], [], [], 0, 0),
        # 1 and -1 cancel: -0 toward negative
        ({'rounding': DOWN}, 2, 2, [ONE, MINUS_ONE, MINUS_ONE, ONE], [minus, minus], [minus, minus], minus, 0),
        ({'rounding': UP}, 2, 2, [ONE, MINUS_ONE, MINUS_ONE, ONE], [0, 0], [0, 0], 0, 0),
        ({}, 2, 1, [minus, minus], [minus, minus], [minus], minus, 0),
        # rows beyond the format, and columns and a grand total that are not
        ({}, 2, 2, [big, big, big + minus, big + minus], [inf, inf + minus], [0, 0], 0, 0),
        ({'saturate': 1}, 2, 2, [big, big, big + minus, big + minus], [big, big + minus], [0, 0], 0, 0),
        # the exact sum of all cells is no sum of the rounded rows: 1 and 2^-11 is a tie, twice that is not
        ({}, 2, 2, [ONE, 0x1000, 0x1000, 0], [ONE, 0x1000], [0x3c00, 0x1000], 0x3c01, 0),
        ({'rounding': TO_ZERO}, 3, 2, [ONE, 0x1000, 0x1000, MINUS_ONE, 0, 0], [ONE, 0xbbff, 0], [0x3c00, 0xbbff], 0x1400, 0),
        # NaNs: of a row the first from the left, of a column the first from the top, of all the first
        ({'nan': 1}, 2, 2, [ONE, 0x7e01, 0xfe02, 0x7e03], [0x7e01, 0xfe02], [0xfe02, 0x7e01], 0x7e01, 0),
        ({'nan': 1}, 2, 2, [0xfe02, 0x7e01, 0x7e03, ONE], [0xfe02, 0x7e03], [0xfe02, 0x7e01], 0xfe02, 0),
        ({'nan': 2}, 2, 2, [ONE, 0x7e01, 0xfe02, 0x7e03], [0x7e01, 0x7e03], [0xfe02, 0x7e03], 0x7e03, 0),
        # infinities of both signs in a column and in all, and of one in each row
        ({}, 2, 2, [inf, ONE, inf + minus, ONE], [inf, inf + minus], [0x7e00, two], 0x7e00, INVALID),
    ]
    tables = []
    for c, n, m, cells, of_rows, of_columns, result, flags in rows:
        t = Table(HALF, c, n, m, cells, (n + 1, m + 2))
        assert t.totals == of_rows + of_columns, (cells, ['%x' % total for total in t.totals])
        assert (t.grand.result, t.grand.flags) == (result, flags), (cells, t.grand.result, t.grand.flags)
        tables.append(t)
    return tables


def shape_of(turn):
    """The rows and columns of tables that a row of the list can hold, one after the other."""
    return ((2, 3), (3, 2), (3, 3), (2, 4), (4, 2), (3, 4), (4, 3), (2, 5), (5, 2), (2, 6), (6, 2), (2, 2))[turn % 12]


def longer(draw, rows, columns):
    """Lists of totals that fit, most of them with guard words behind."""
    return tuple(min(15, n + draw.choice([0, 1, 2, 5])) for n in (rows, columns))


def any_table(draw, f, c, rows, columns):
    """Values close to one exponent or ties, some of them with their negatives, infinities and NaNs in a fourth of the tables."""
    n = rows * columns
    while True:
        near = draw.choice([0, 1, f.ones - 1, f.bias, draw.bits(f.e)])
        if draw.bits(1):
            cells = [any_value(draw, f, near) for _ in range(n)]
            if draw.chance(75):
                cells = [v if f.decode(v)[0] in ('zero', 'number') else power(f, near - f.bias) for v in cells]
        else:
            # a tie in each row, or in each column
            by_row = draw.bits(1)
            count, length = (rows, columns) if by_row else (columns, rows)
            lines = [(near_tie(draw, f)[1] + [0] * length)[:length] for _ in range(count)]
            cells = [lines[i][j] if by_row else lines[j][i] for i in range(rows) for j in range(columns)]
        for _ in range(draw.below(3) if n > 1 else 0):
            cells[draw.below(n)] = draw.choice(cells) ^ f.sign
        terms, top = sum_terms(VALUE, operands(f, {**PLAIN, **c}, cells)[0])
        if top - min((x for _, _, x in terms), default=top) <= 5000:
            return Table(f, c, rows, columns, cells, longer(draw, rows, columns), draw.choice([24, 25, 31, 32, 32]))


def table_shapes(draw, format_of):
    """Every shape that a row of the list can hold: one row, one column, no rows, no columns, nothing."""
    shapes = [(n, m) for n in range(MOST_TOTALS + 1) for m in range(MOST_TOTALS + 1 - n) if n * m <= VALUES]
    return [any_table(draw, f, settings(draw, f), n, m) for f, (n, m) in ((format_of(i), shape) for i, shape in enumerate(shapes))]


def table_settings(draw, format_of):
    """Each rounding in each kind; and each tininess, flush, denormals-are-zero and saturation, at the ends of a format."""
    tables = []
    for kind, mode in product(range(4), range(8)):
        i = len(tables)
        f = format_of(kind, i)
        tables.append(any_table(draw, f, {**settings(draw, f), 'rounding': mode}, *shape_of(i)))
    for tininess, flush, daz, saturate, turn in product(range(2), repeat=5):
        i = len(tables)
        f = format_of(i % 4 + i // 4 % 2, i)
        c = {'rounding': (3 * i + turn) % 8, 'tininess': tininess, 'flush': flush, 'daz': daz, 'saturate': saturate, 'precision': (0, 0, 2)[i % 3]}
        n, m = ((2, 3), (3, 2), (2, 2))[i % 3]
        big, one, pool = f.largest(0, f.p), f.sign + 1, [1, 2, f.quiet, f.sign + (1 << f.fraction) - 1, power(f, f.emin), 0]
        cells = [draw.choice(pool) for _ in range(n * m)]
        # numbers near the largest in the first row, or the first column
        for at in range(m) if i // 2 % 2 else range(0, n * m, m):
            cells[at] = draw.choice([big, big ^ f.sign, big, one])
        tables.append(Table(f, c, n, m, cells, longer(draw, n, m)))
    return tables


def table_nans(draw, named):
    """NaNs of either sign, quiet and signaling, with payloads, some of them beside infinities, by each rule; kinds with one NaN."""
    tables = []
    for rule, pair, turn in product(range(4), ((5, 16), (11, 64)), range(2)):
        f = Format(IEEE, *pair, named)
        inf, one = f.infinity(0), power(f, f.emin + 3)
        nan = lambda: f.sign * draw.bits(1) + inf + f.quiet * draw.bits(1) + draw.between(1, 7)
        n, m = shape_of(len(tables))
        cells = [draw.choice([one, nan(), nan(), inf, f.sign + inf, 1]) if turn else draw.choice([one, 0, nan()]) for _ in range(n * m)]
        tables.append(Table(f, {'nan': rule, 'negative': turn, 'rounding': draw.below(8)}, n, m, cells, longer(draw, n, m)))
    for f in (Format(NOINF, 4, 8, named), Format(FNUZ, 5, 16, named)):
        for rule in range(4):
            cells = [draw.choice([1, f.nan(draw.bits(1), 0), f.largest(0, f.p), f.sign + 1]) for _ in range(6)]
            cells[draw.below(6)] = f.nan(draw.bits(1), 0)
            tables.append(Table(f, {'nan': rule, 'negative': rule % 2}, 2, 3, cells, (3, 3)))
    return tables


def table_zeros(draw):
    """Infinities of one sign and of both; zeros of either sign, with terms that cancel."""
    tables = []
    for i in range(8):
        f = Format(IEEE if i < 4 else i % 4, *PAIRS[i % 7])
        minus = 0 if f.kind == FNUZ else f.sign
        one = power(f, 0)
        pool = [f.infinity(0), f.infinity(1), one, 1] if i < 4 else [0, minus, 0, minus, one, one + f.sign]
        n, m = shape_of(i)
        cells = [draw.choice(pool) for _ in range(n * m)]
        tables.append(Table(f, {'rounding': DOWN if i % 2 else EVEN, 'negative': i // 2 % 2}, n, m, cells, longer(draw, n, m)))
    return tables


def spoiled_table(numbers, turn, bias=None):
    """A table of which exactly the conditions of these numbers hold: 3 by the bias, where one is named."""
    f = ((4, 5, 16), (0, 1, 16), (1, 29, 40), (2, 11, 12))[turn % 4] if 3 in numbers and bias is None else (turn % 4, 5, 16)
    c = ({'rounding': 8}, {'nan': 4}, {'saturate': 2}, {'tininess': 15}, {'precision': 255})[turn % 5] if 4 in numbers else {}
    n, m = shape_of(turn)
    cells = [1 + i % 3 for i in range(n * m)]
    if 9 in numbers:
        n, m, cells = ((n + 1, m, cells), (n, m - 1, cells), (n, m, cells[1:]), (n, m, cells + [1]) if n * m < VALUES else (m, m + 1, cells))[turn % 4]
    if 7 in numbers:
        for at in (turn % len(cells), len(cells) - 1):
            cells[at] += 1 << f[2] + turn % 7
    lent = ((n - 1, m + 1), (n + 2, m - 1), (0, 0), (m - 1, n - 1))[turn % 4] if 10 in numbers else (n + turn % 3, m + turn % 2)
    t = Table((*f, bias), c, n, m, cells, lent, (0, 23, 8, 22)[turn % 4] if 2 in numbers else 32)
    assert t.holds == set(numbers), (numbers, t.holds)
    return t


def table_refusals(draw):
    """Each refusal by itself, at its limits; each two at once; more; and sizes whose product is the number of cells modulo 2^64 alone."""
    numbers = (2, 3, 4, 9, 10, 7)
    tables = [spoiled_table({n}, turn) for n in numbers for turn in range(4)]
    tables += [spoiled_table(set(two), i % 4 + 4 * (i % 2)) for i, two in enumerate(combinations(numbers, 2))]
    tables += [spoiled_table(set(more), i) for i, more in enumerate((numbers, numbers[1:], numbers[2:], numbers[3:], (2, 3, 9), (4, 10, 7)))]
    four, third = [ONE, ONE, ONE, ONE], (2 ** 64 + 5) // 3
    for rows, columns, cells, lent, number in (
            # 9: the sides exchanged with those of another shape, an empty side, one cell more
            (2, 3, four, (2, 3), 9), (4, 2, four, (4, 2), 9), (0, 4, four, (0, 4), 9), (4, 0, four, (4, 0), 9), (0, 0, [ONE], (0, 0), 9), (1, 1, [], (1, 1), 9),
            (2, 2, four + [ONE], (2, 2), 9),
            # 10: a list that is one word too short; lists that would do if they were exchanged
            (4, 1, four, (3, 1), 10), (4, 1, four, (4, 0), 10), (1, 4, four, (1, 3), 10), (1, 4, four, (4, 1), 10), (2, 2, four, (15, 1), 10),
            (2, 2, four, (1, 15), 10), (9, 0, [], (8, 0), 10), (0, 9, [], (15, 8), 10), (15, 0, [], (14, 0), 10),
            # large sizes
            (2 ** 63, 0, [], (15, 0), 10), (0, 2 ** 63, [], (0, 15), 10), (MANY, 0, [], (15, 15), 10), (0, MANY, [], (15, 15), 10),
            (2 ** 63, 1, [ONE], (15, 15), 9), (1, 2 ** 63, [], (15, 15), 9), (MANY, 1, [ONE], (15, 15), 9), (1, MANY, [], (0, 0), 9),
            (2 ** 63, 2, [], (15, 15), 9), (2, 2 ** 63, [], (15, 15), 9), (2 ** 63 + 1, 2, [ONE, ONE], (15, 15), 9), (2 ** 63, 2 ** 63, [], (15, 15), 9),
            (MANY, MANY, [ONE], (15, 15), 9), (MANY, MANY, [], (15, 15), 9), (2 ** 32, 2 ** 32, [], (15, 15), 9), (2 ** 32, 2 ** 32, [STRAY], (0, 0), 9),
            (third, 3, [ONE] * 5, (15, 15), 9), (3, third, [ONE] * 5, (15, 15), 9), (2 ** 60, 16, [], (15, 15), 9)):
        t = Table(HALF, {'rounding': draw.below(8)}, rows, columns, cells, lent)
        assert t.refusal == number, (rows, columns, t.refusal)
        tables.append(t)
    # 7: the place of the first cell, and none in a table of words of 64 bits
    for at in (0, 5, 11):
        cells = [ONE] * 12
        cells[at] += STRAY << at
        tables.append(Table(HALF, {}, 3, 4, cells, (5, 5)))
    tables.append(Table((0, 2, 64), {}, 1, 2, [0, 1 << 63], (1, 2)))
    return tables


def tables():
    draw = Draw(480)
    made = table_examples()
    made += table_shapes(draw, lambda i: Format(i % 4, *PAIRS[i % 7]))
    made += table_settings(draw, lambda kind, i: Format(kind % 4, *(PAIRS + ((15, 64), (28, 64), (2, 4), (12, 14)))[i % 11]))
    made += table_nans(draw, None)
    made += table_zeros(draw)
    made += table_refusals(draw)
    return made


def biased_tables():
    """The same with a named bias."""
    draw = Draw(481)
    some = PRODUCTS + VAST + VANISHING
    made = [Table((2, 4, 8, 11), {}, 2, 2, [0x7f, 0x7f, 0xff, 1], (2, 2)), Table((3, 2, 4, -3), {}, 1, 2, [1, 3], (2, 3))]
    assert (made[0].totals, made[1].totals) == ([0x80, 0xff, 0, 0x7f], [4, 1, 3])
    for i in range(24):
        f = Format(i % 4, *some[5 * i % 31])
        made.append(any_table(draw, f, {**settings(draw, f), 'rounding': i % 8}, *shape_of(i)))
    for i in range(4):
        f = Format(i, *((5, 16), (11, 64))[i % 2])
        plain = any_table(draw, f, settings(draw, f), *shape_of(i))
        made.append(Table((*plain.f[:3], f.bias), plain.c, plain.rows, plain.columns, plain.cells, plain.lent))
        assert made[-1].totals == plain.totals
    for i, bias in enumerate((2 ** 28, -2 ** 28)):
        f = Format(i, 28, 64, bias)
        made.append(any_table(draw, f, {}, 2, 3))
    made += table_nans(draw, -40)[::5]
    far = 2 ** 28 + 1, -2 ** 28 - 1, 2 ** 63 - 1, 1 - 2 ** 63, 2 ** 32 + 15
    made += [spoiled_table({3}, i, bias) for i, bias in enumerate(far)]
    made += [spoiled_table({n, 3}, i, far[i]) for i, n in enumerate((2, 4, 9, 10, 7))]
    made += [spoiled_table({n}, i, (-40, 0, 40, 2000, 2 ** 28)[i]) for i, n in enumerate((2, 4, 9, 10, 7))]
    return made


def cover_tables(every):
    accepted = [t for t in every if t.refusal == 0]
    print('%5d  tables, %d of them accepted' % (len(every), len(accepted)))
    plain, biased = ([t for t in accepted if (t.named is None) == this] for this in (True, False))
    fewest('rows and columns, 0, 1 and more', plain, lambda t: (min(t.rows, 2), min(t.columns, 2)), range(3), range(3))
    fewest('kind and rounding', plain, lambda t: (t.kind, t.c['rounding']), range(4), range(8))
    switches = lambda t: tuple(t.c[name] for name in ('tininess', 'flush', 'daz', 'saturate'))
    fewest('tininess, flush, denormals are zero, saturation', plain, switches, *[range(2)] * 4)
    fewest('tables with a NaN, by rule and kind', [t for t in plain if t.grand.has_nan()], lambda t: (t.c['nan'], t.kind), range(4), (IEEE, NOINF, FNUZ))
    nans = lambda t: {v for v in t.totals if t.grand.format().decode(v)[0] == 'nan'}
    fewest('NaNs of different payload or sign in one table, by rule', [t for t in plain if len(nans(t)) > 1], lambda t: (t.c['nan'],), range(3))
    fewest('passes of all cells, 0 to 3', plain, lambda t: (t.grand.passes,), range(4))
    fewest('side of all cells', plain, lambda t: (t.grand.leans,), range(4))
    # a row list that is longer than the rows has guard words, and so has a column list
    fewest('guard words behind the totals of rows, of columns', plain, lambda t: (t.lent[0] > t.rows, t.lent[1] > t.columns), (False, True), (False, True))
    fewest('with a bias: kind', biased, lambda t: (t.kind,), range(4))
    fewest('one refusal alone', [t for t in every if t.named is None and len(t.holds) == 1], lambda t: tuple(t.holds), (2, 3, 4, 9, 10, 7))
    fewest('two refusals at once, by pair', [t for t in every if t.named is None and len(t.holds) == 2], lambda t: (tuple(sorted(t.holds)),),
           [tuple(sorted(two)) for two in combinations((2, 3, 4, 9, 10, 7), 2)])
    fewest('3 for the bias, alone and beside each', [t for t in every if t.named is not None and abs(t.named) > LARGEST_BIAS],
           lambda t: (tuple(sorted(t.holds - {3})),), [(), (2,), (4,), (9,), (10,), (7,)])
    fewest('9 where the product is the number of cells modulo 2^64', [t for t in every if 9 in t.holds],
           lambda t: (t.rows * t.columns % 2 ** 64 == len(t.cells),), (True,))


# ---- amounts known within a range

ENTRIES = 6
# the tag of each digit
TAGS = (0, 1, 2, 3, 4, 127, 128, 255, 256, 257, 258, 65538, 2 ** 32, 2 ** 32 + 2, 2 ** 63 + 1, 2 ** 64 - 1)
MINUS = 1 << 63
MOST, NOT_A_NUMBER, SIGNALING = 0x7fefffffffffffff, 0x7ff8000000000000, 0x7ff0000000000001
UNIT, HUNDRED, THOUSAND = 0x3ff0000000000000, 0x4059000000000000, 0x408f400000000000
# the greatest subnormal number, and the least normal one
SMALL, NORMAL = 0x000fffffffffffff, 0x0010000000000000
# figures that are not used
UNUSED = (NOT_A_NUMBER, SIGNALING, MINUS + NOT_A_NUMBER, INFINITE, MINUS + INFINITE, 2 ** 64 - 1, MINUS, MOST, 5)


class Amounts:
    """Entries known within a range, the length of the list that is lent for the pair, and what they answer."""

    def __init__(self, entries, ceiling=0, lent=2, lengths=None):
        tags, firsts, seconds = ([entry[i] for entry in entries] for i in range(3))
        a, b, c = lengths or (len(entries),) * 3
        self.tags, self.firsts, self.seconds, self.ceiling, self.lent = tags[:a], firsts[:b], seconds[:c], ceiling, lent
        self.causes = range_conditions(self.tags, self.firsts, self.seconds, ceiling, lent)
        self.holds = {n for n, _ in self.causes}
        self.returned = min(self.holds, default=0)
        self.refusal = min(self.holds - {2}, default=0)
        self.lows, self.highs = (self.firsts, self.seconds) if self.refusal else range_ends(self.tags, self.firsts, self.seconds, ceiling)
        self.pair = (0, 0) if self.refusal else range_pair(self.lows, self.highs)

    def row(self):
        lists = self.tags, self.firsts, self.seconds
        assert max(map(len, lists)) <= ENTRIES and self.lent <= 4
        filled = lambda words: words + [0] * (ENTRIES - len(words))
        text = 'r %x%x%x %x %02x %02x %016x %016x %016x %s ------' % (
            *map(len, lists), self.lent, self.refusal, self.returned, self.ceiling, *self.pair, ''.join('%x' % TAGS.index(tag) for tag in filled(self.tags)))
        assert len(text) == HEAD - 1
        return ' '.join([text] + ['%016x' % v for list in (self.firsts, self.seconds, self.lows, self.highs) for v in filled(list)]) + '\n'


def range_of(row):
    """The entries of a row, with the model's answer."""
    number = lambda at, digits: int(row[at:at + digits], 16)
    lengths = number(2, 1), number(3, 1), number(4, 1)
    entries = [(TAGS[number(65 + i, 1)], number(HEAD + 17 * i, 16), number(HEAD + 17 * (ENTRIES + i), 16)) for i in range(max(lengths))]
    return Amounts(entries, number(14, 16), number(6, 1), lengths)


def known(b, unused=0):
    return KNOWN, b, unused


def between(a, b):
    return BETWEEN, a, b


def missing(first=0, second=0):
    return MISSING, first, second


def range_examples():
    """Worked out by hand."""
    tie = power(DOUBLE, -53)
    rows = [
        ([known(MOST), known(MOST)], 0, MOST, INFINITE),
        ([known(MINUS + MOST), known(MINUS + MOST)], 0, MINUS + INFINITE, MINUS + MOST),
        ([known(UNIT), known(tie)], 0, UNIT, UNIT + 1),
        ([known(MINUS + UNIT), known(MINUS + tie)], 0, MINUS + UNIT + 1, MINUS + UNIT),
        ([between(MINUS + HUNDRED, 0x4069000000000000), missing()], THOUSAND, MINUS + HUNDRED, 0x4092c00000000000),
        ([between(MINUS + MOST, MOST)], 0, MINUS + MOST, MOST),
        ([between(MINUS + MOST, MOST), known(UNIT)], 0, MINUS + MOST, INFINITE),
        ([between(MINUS + MOST, MOST), known(MINUS + 1)], 0, MINUS + INFINITE, MOST),
        ([between(MINUS + MOST, MOST)] * 2, 0, MINUS + INFINITE, INFINITE),
        ([], 0, 0, 0),
        ([], MOST, 0, 0),
        ([known(MINUS)], 0, 0, 0),
        ([between(0, MINUS)], 0, 0, 0),
        ([between(MINUS, 0)], 0, 0, 0),
        ([known(UNIT), known(MINUS + UNIT)], 0, 0, 0),
        ([missing()] * 2, MINUS, 0, 0),
        ([missing()] * 3, UNIT, 0, 0x4008000000000000),
        ([missing()] * 6, MOST, 0, INFINITE),
        ([between(MINUS + 1, 1), known(1)], 0, 0, 2),
        ([between(MINUS + 2, MINUS + 1), known(1)], 0, MINUS + 1, 0),
        ([known(power(DOUBLE, 1000)), between(MINUS + UNIT, UNIT), known(power(DOUBLE, 1000, 1))], 0, MINUS + UNIT, UNIT),
        ([known(MOST), known(MOST), known(MINUS + MOST)], 0, MOST, MOST),
        ([known(MOST), missing()], 1, MOST, INFINITE),
        ([known(SMALL), known(1)], 0, NORMAL, NORMAL),
    ]
    made = []
    for i, (entries, ceiling, lower, upper) in enumerate(rows):
        made.append(Amounts(entries, ceiling, 2 + i % 3))
        assert made[-1].pair == (lower, upper) and not made[-1].holds, (entries, ['%x' % b for b in made[-1].pair])
    return made


def range_entries():
    """Entries alone: known by a figure of every kind, from one figure to the same or to the next, missing under ceilings."""
    figures = 0, 1, SMALL, NORMAL, UNIT, UNIT + 1, power(DOUBLE, 52), MOST
    made = [Amounts([known(sign + b, UNUSED[i % 9])]) for i, b in enumerate(figures) for sign in (0, MINUS)]
    made += [Amounts([between(b, b)], UNIT) for b in (0, MINUS, MINUS + 1, UNIT, MOST)]
    for a, b in ((0, 1), (MINUS + 1, MINUS), (MINUS + 1, 0), (SMALL, NORMAL), (MINUS + NORMAL, MINUS + SMALL), (MINUS + UNIT, UNIT), (MOST - 1, MOST),
                 (MINUS + MOST, MINUS + MOST - 1), (MINUS + MOST, MINUS), (0, MOST), (MINUS + SMALL, 1)):
        made.append(Amounts([between(a, b)], lent=3))
    made += [Amounts([missing(UNUSED[i], UNUSED[8 - i])], z) for i, z in enumerate((0, MINUS, 1, SMALL, NORMAL, UNIT, THOUSAND, MOST))]
    # one of each tag, in each order, with figures that are not used
    for i, order in enumerate(permutations((known(UNIT, NOT_A_NUMBER), between(MINUS + HUNDRED, HUNDRED), missing(INFINITE, MINUS + SIGNALING)))):
        made.append(Amounts(list(order), THOUSAND, 2 + i % 3))
    return made + [Amounts([known(HUNDRED, b), missing(b, UNUSED[-1 - i])], UNIT) for i, b in enumerate(UNUSED[:5])]


def range_roundings():
    """Sums beside a double: exact, a tie, and a trace more or less than each, as both totals and as one of them; beside the greatest double, among the
    subnormal numbers, and where huge figures cancel."""
    made = []
    half, trace = power(DOUBLE, -53), 1
    for parts, sign in product(([half], [half, trace], [half, MINUS + trace], [trace], [MINUS + trace], [MINUS + half], [UNIT - 1, half]), (0, MINUS)):
        figures = [b ^ sign for b in [UNIT] + parts]
        made.append(Amounts([known(b) for b in figures], UNIT))
        made.append(Amounts([known(figures[0])] + [between(0, b) if b < MINUS else between(b, 0) for b in figures[1:]]))
    # beside the greatest double a tie is half of 2^971
    half = power(DOUBLE, 970)
    for parts in ([half], [half, MINUS + trace], [trace], [MINUS + trace], [half, half], [MINUS + MOST, trace], [MOST, MINUS + MOST],
                  [MOST, MINUS + MOST, trace]):
        made += [Amounts([known(b ^ sign) for b in [MOST] + parts], lent=4) for sign in (0, MINUS)]
    huge = power(DOUBLE, 1000, 0, 0x123456789abcd)
    for small in (UNIT, MINUS + 1, half):
        made.append(Amounts([known(huge), known(small), known(MINUS + huge)]))
        made.append(Amounts([between(MINUS + huge, huge), known(small), missing(), known(MINUS + huge)], huge))
    return made + [Amounts([between(MINUS + 1, SMALL), known(b), missing()], SMALL) for b in (SMALL, MINUS + 1, MINUS + SMALL, MINUS + NORMAL)]


def range_ceilings():
    """Good ceilings and bad ones, with an entry that is missing, with none, and with no entry."""
    bad = NOT_A_NUMBER, SIGNALING, 2 ** 64 - 1, INFINITE, MINUS + INFINITE, MINUS + 1, MINUS + UNIT, MINUS + MOST
    made = [Amounts(entries, z, 2 + i % 2) for i, z in enumerate(bad) for entries in ([known(UNIT)], [missing()] if i % 2 else [])]
    return made + [Amounts([known(UNIT), between(0, UNIT)], z) for z in (MINUS, 1, MOST)] + [Amounts([missing(), known(UNIT)], MINUS), Amounts([], MINUS)]


def range_refusals():
    """Each cause of 11, 5 by each list, 2, and several at once."""
    made = [Amounts([known(UNIT)] * (i % 6) + [(tag, UNIT, UNIT)], UNIT) for i, tag in enumerate(TAGS[3:])]
    for i, b in enumerate((NOT_A_NUMBER, SIGNALING, MINUS + NOT_A_NUMBER, INFINITE, MINUS + INFINITE)):
        made.append(Amounts([missing()] * i + [known(b, UNIT)]))
        made.append(Amounts([between(b, MOST)] + [known(0)] * i))
        made.append(Amounts([known(b ^ b % MINUS), between(MINUS + MOST, b), missing()]))
    # a low above its high: by the least step, over zero, by the sign, amid others
    for a, b in ((UNIT + 1, UNIT), (MINUS + UNIT, MINUS + UNIT + 1), (1, 0), (1, MINUS), (0, MINUS + 1), (MINUS, MINUS + 1), (1, MINUS + 1), (MOST, MOST - 1),
                 (NORMAL, SMALL), (UNIT, MINUS + UNIT), (MOST, MINUS + MOST)):
        made.append(Amounts([known(UNIT)] * (a % 3) + [between(a, b)], THOUSAND))
    for i, lengths in enumerate(((2, 2, 3), (2, 3, 2), (3, 2, 2), (0, 0, 1), (0, 1, 0), (1, 0, 0), (0, 1, 1), (1, 2, 3), (6, 6, 5))):
        made.append(Amounts([known(UNIT)] * 6, UNIT, 2 + i % 3, lengths))
    # 5 before 11: by the ceiling, a tag, a figure, a low above its high
    for entry, z in ((known(UNIT), NOT_A_NUMBER), ((3, 0, 0), 0), (known(INFINITE), 0), (between(UNIT, 0), 0)):
        made.append(Amounts([entry] * 3, z, lengths=(3, 3, 2)))
        made.append(Amounts([entry] * 3, z, lengths=(2, 3, 3)))
    # 2 alone, before 5, before 11, and before both
    for entries, lengths in (([known(UNIT, 5), missing(5, 5)], None), ([known(UNIT)] * 2, (1, 2, 2)), ([(3, 0, 0)], None), ([(3, 0, 0)] * 2, (2, 2, 1))):
        made += [Amounts(entries, UNIT, lent, lengths) for lent in range(2)]
    return made


def any_figure(draw, near):
    """A finite double near an exponent, a subnormal one or a zero among them."""
    b = draw.bits(1) << 63 | max(0, min(2046, near + draw.choice([0, 0, 1, -1, 53, -53, 54]))) << 52 | draw.choice([0, 1, draw.bits(52), draw.bits(52)])
    return draw.choice([b, b, b, b, MINUS * draw.bits(1), MINUS * draw.bits(1) + 1, MINUS * draw.bits(1) + SMALL])


def any_entries(draw):
    near = draw.choice([0, 1, 2046, 1023, 1023, draw.bits(11)])
    entries = []
    for _ in range(draw.between(2, ENTRIES)):
        a, b = sorted((any_figure(draw, near), any_figure(draw, near)), key=double)
        entries.append(draw.choice([known(a, draw.choice(UNUSED)), between(a, b), between(a, b), missing(draw.choice(UNUSED), b)]))
    return entries, any_figure(draw, near) % MINUS


def range_orders(draw):
    """Entries in five orders, one pair for each."""
    made = []
    for _ in range(5):
        entries, z = any_entries(draw)
        while len(set(entries)) < 4:
            entries, z = any_entries(draw)
        group = [Amounts(order, z, 3) for order in (entries, entries[::-1], sorted(entries), draw.shuffled(entries), draw.shuffled(entries))]
        assert len({other.pair for other in group}) == 1 and not group[0].holds
        made += group
    return made


def ranges():
    draw = Draw(600)
    made = range_examples() + range_entries() + range_roundings() + range_ceilings() + range_refusals() + range_orders(draw)
    for i in range(7):
        entries, z = any_entries(draw)
        made.append(Amounts(entries, z, 2 + i % 3))
    return made


def cover_ranges(every):
    accepted = [r for r in every if r.refusal == 0]
    print('%5d  lists of amounts, %d of them accepted' % (len(every), len(accepted)))
    each = lambda rows, of: [(r, kind) for r in rows for kind in of(r)]
    second = lambda pair: (pair[1],)
    fewest('tags', each(accepted, lambda r: set(r.tags)), second, range(3))
    # a known entry's second figure, and both of a missing one
    unused = lambda r: {(tag, math.isnan(double(b))) for tag, *two in zip(r.tags, r.firsts, r.seconds) for b in two[1 - tag // 2:]
                        if tag != BETWEEN and not is_finite(b)}
    fewest('infinities and NaNs in unused figures, known and missing', each(accepted, unused), lambda pair: pair[1], (KNOWN, MISSING), (False, True))
    kind = lambda b: 'infinity' if not is_finite(b) else 'zero' if b % MINUS == 0 else 'subnormal' if b % MINUS < NORMAL else 'normal'
    fewest('lower totals by kind', accepted, lambda r: (kind(r.pair[0]),), ('infinity', 'zero', 'subnormal', 'normal'))
    fewest('upper totals by kind', accepted, lambda r: (kind(r.pair[1]),), ('infinity', 'zero', 'subnormal', 'normal'))
    exact = lambda figures: sum((Fraction(double(b)) for b in figures), Fraction(0))
    same = lambda b, figures: is_finite(b) and double(b) == exact(figures)
    fewest('totals that are the sum of the lows or not, and of the highs', accepted, lambda r: (same(r.pair[0], r.lows), same(r.pair[1], r.highs)),
           (True, False), (True, False))
    # Python rounds a fraction to the nearest double, ties to even
    nearest = lambda b, x: abs(x) >= 2 ** 1023 or float(x) == double(b)
    fewest('totals that are not the nearest double', accepted, lambda r: (nearest(r.pair[0], exact(r.lows)), nearest(r.pair[1], exact(r.highs))),
           (True, False), (True, False))
    fewest('one cause of 11 alone', [r for r in every if len(r.causes) == 1 and r.holds == {11}], lambda r: next(iter(r.causes))[1:],
           ('ceiling not finite', 'ceiling below zero', 'tag', 'first figure', 'second figure', 'low above high'))
    fewest('a bad ceiling where no entry is missing', [r for r in every if r.refusal == 11 and MISSING not in r.tags and len(r.causes) == 1],
           lambda r: (next(iter(r.causes))[1][:7],), ('ceiling',))
    fewest('refusals alone and two or three at once', [r for r in every if r.holds], lambda r: (tuple(sorted(r.holds)),),
           [(2,), (5,), (11,), (2, 5), (2, 11), (5, 11), (2, 5, 11)])
    fewest('number of entries, 0 to 6', accepted, lambda r: (len(r.tags),), range(7))
    fewest('length of the pair, 0 to 4', every, lambda r: (r.lent,), range(5))


# ---- career pages

# the most bytes of a page in a row, and the most values in a row of a page that is written
PAGE, LONG_PAGE = 208, 1096
LIST, LONG_LIST = 22, 129
PATTERN = 0xa5


class Span:
    """A span of a page, which lies at a place of its buffer, the length of the buffer that is lent for the answer, and what it answers."""

    def __init__(self, page, start, end, c={}, summand=VALUE, room=32, place=0):
        self.page, self.start, self.end, self.c, self.summand, self.room, self.place = page, start, end, {**PLAIN, **c}, summand, room, place
        self.holds = page_conditions(page, start, end, self.c, summand, room)
        self.returned, self.refusal = (next((n for n in order if n in self.holds), 0) for order in (PAGE_ORDER, PAGE_ORDER[1:]))
        self.values = page_values(page)
        assert self.values is None or page == page_bytes(self.values)
        # the total is that of a plain sum
        self.total = Case(DOUBLE, self.c, [] if self.refusal else self.values[start:end], summand=summand)

    def row(self, most):
        t = Record(0, 0) if self.refusal else self.total
        assert len(self.page) <= most and self.place <= 7
        text = 'g %03x %x - %s %02x %x -- -- %02x %016x %02x %06x %s %x 0 %03x %x' % (
            len(self.page), self.place, ''.join('%x' % self.c[name] for name in SETTINGS[:7]), self.c['precision'], self.summand, self.room,
            t.result, t.flags, t.passes, signed(t.edge, 8), self.refusal, self.returned, t.leans)
        assert len(text) == HEAD - 1
        return '%s %016x %016x %s\n' % (text, self.start, self.end, self.page.hex().ljust(2 * most, '-'))


def span_of(row):
    """The span of a row, with the model's answer."""
    number = lambda at, digits: int(row[at:at + digits], 16)
    c = {name: number(10 + i, 1) for i, name in enumerate(SETTINGS[:7])}
    c['precision'] = number(18, 2)
    at = HEAD + 2 * 17
    return Span(bytes.fromhex(row[at:at + 2 * number(2, 3)]), number(HEAD, 16), number(HEAD + 17, 16), c, number(21, 1), number(29, 2), number(6, 1))


class Written:
    """Values, the length of the destination, its place in a buffer, the buffer's first byte, what the writing answers, and the destination after it."""

    def __init__(self, values, room, place=0, first=PATTERN):
        self.values, self.room, self.place, self.first = values, room, place, first
        self.returned, page = page_written(values, room)
        self.after = page + bytes((first + place + i) % 256 for i in range(len(page), room))

    def row(self, most):
        assert len(self.values) <= (LONG_LIST if most == LONG_PAGE else LIST) and self.room <= most and self.place <= 7
        text = 'w %02x %03x %x %02x %06x %s %s' % (
            len(self.values), self.room, self.place, self.first, self.returned, ''.join('%016x' % b for b in self.values), self.after.hex())
        return text.ljust(22 + 16 * (LONG_LIST if most == LONG_PAGE else LIST) + 2 * most, '-') + '\n'


def written_of(row):
    """The values of a row, with the model's answer."""
    number = lambda at, digits: int(row[at:at + digits], 16)
    return Written([number(21 + 16 * i, 16) for i in range(number(2, 2))], number(5, 3), number(9, 1), number(11, 2))


# numbers of every kind
KINDS = 0, 1, 2, SMALL, NORMAL, UNIT, UNIT + 1, 0x4008000000000000, MOST, INFINITE, NOT_A_NUMBER, SIGNALING, MINUS - 1
TWO_VALUES = [power(DOUBLE, 1000), MINUS + 1]
FIVE_VALUES = [UNIT, MINUS + HUNDRED, power(DOUBLE, -53), 0, THOUSAND]


def page_examples():
    """Worked out by hand: pages in bytes; and values, a span, its result, flags and last edge, or its refusal."""
    trailer_of = lambda n: '%02x000000%02x0000004000000043504731' % (8 * n, n)
    for values, text in (
            ([], ''),
            ([0x4008000000000000], '0000000000000840 01000000 00000000 00000000'),
            # 3/2, +0 and a NaN; an infinity; the greatest double and the least one below zero; -0 and an infinity; 2^52 and 96
            ([0x3ff8000000000000, 0, NOT_A_NUMBER], '000000000000f83f 0000000000000000 000000000000f87f 00000000 ffffffff 05000000'),
            ([MINUS + INFINITE], '000000000000f0ff 00000000 00000000 02000000'),
            ([MOST, MINUS + 1], 'ffffffffffffef7f 0100000000000080 ff030000 cefbffff 00000000'),
            ([MINUS, INFINITE], '0000000000000080 000000000000f07f 00000000 00000000 06000000'),
            ([0x4330000000000000, 0x4058000000000000], '0000000000003043 0000000000005840 34000000 05000000 00000000')):
        assert page_bytes(values) == bytes.fromhex(text + trailer_of(len(values))), values
    rows = [
        ([], 0, 0, {}, VALUE, (0, 0, 0)),
        ([], 0, 0, {'rounding': DOWN}, SQUARE, (0, 0, 0)),
        ([0x4008000000000000], 0, 1, {}, VALUE, (0x4008000000000000, 0, 1 - 702)),
        ([power(DOUBLE, 1000), UNIT], 1, 2, {}, VALUE, (UNIT, 0, -702)),
        ([power(DOUBLE, 1000), UNIT], 0, 1, {}, VALUE, (power(DOUBLE, 1000), 0, 1000 - 702)),
        ([UNIT, UNIT], 0, 3, {'rounding': 9}, VALUE, 13),
        ([UNIT, UNIT], 0, 2, {'rounding': 9}, VALUE, 4),
        ([UNIT, UNIT], 0, 2, {}, 3, 4),
        ([UNIT, UNIT], 2, 1, {}, VALUE, 13),
        # an empty span is +0, whatever lies beside it
        ([NOT_A_NUMBER], 0, 0, {}, VALUE, (0, 0, 0)),
        ([SIGNALING, MINUS], 1, 1, {'rounding': DOWN}, VALUE, (0, 0, 0)),
        ([MINUS], 1, 1, {'rounding': DOWN}, VALUE, (0, 0, 0)),
        ([MINUS], 0, 1, {}, VALUE, (MINUS, 0, 0)),
        ([0, MINUS], 0, 2, {'rounding': DOWN}, VALUE, (MINUS, 0, 0)),
        ([0, MINUS], 0, 2, {}, VALUE, (0, 0, 0)),
        ([0, MINUS], 1, 2, {}, VALUE, (MINUS, 0, 0)),
        ([UNIT, MINUS + UNIT, NOT_A_NUMBER], 0, 2, {'rounding': DOWN}, VALUE, (MINUS, 0, -702)),
        ([UNIT, MINUS + UNIT, NOT_A_NUMBER], 0, 3, {}, VALUE, (NOT_A_NUMBER, 0, 0)),
        ([UNIT, MINUS + UNIT, SIGNALING + 4], 1, 3, {}, VALUE, (NOT_A_NUMBER + 5, INVALID, 0)),
        ([UNIT, power(DOUBLE, -53), power(DOUBLE, -1000)], 0, 3, {}, VALUE, (UNIT + 1, INEXACT + RAISED, -1403)),
        ([UNIT, power(DOUBLE, -53), power(DOUBLE, -1000)], 0, 2, {}, VALUE, (UNIT, INEXACT, -702)),
        ([MOST, MOST, MINUS + MOST], 0, 2, {}, VALUE, (INFINITE, OVERFLOW + INEXACT + RAISED, 1023 - 702)),
        ([MOST, MOST, MINUS + MOST], 0, 2, {'saturate': 1}, VALUE, (MOST, OVERFLOW + INEXACT, 1023 - 702)),
        ([MOST, MOST, MINUS + MOST], 0, 3, {}, VALUE, (MOST, 0, 1023 - 702)),
        ([INFINITE, MINUS + INFINITE, UNIT], 0, 3, {}, VALUE, (NOT_A_NUMBER, INVALID, 0)),
        ([INFINITE, MINUS + INFINITE, UNIT], 1, 3, {}, VALUE, (MINUS + INFINITE, 0, 0)),
        ([INFINITE, MINUS + INFINITE, UNIT], 0, 2, {}, MAGNITUDE, (INFINITE, 0, 0)),
        ([INFINITE, MINUS + INFINITE, UNIT], 2, 3, {}, VALUE, (UNIT, 0, -702)),
        ([MINUS + 0x4008000000000000, UNIT], 0, 2, {}, SQUARE, (0x4024000000000000, 0, 3 - 702)),
        ([MINUS + 0x4008000000000000, UNIT], 0, 2, {}, MAGNITUDE, (0x4010000000000000, 0, 1 - 702)),
        # a setting acts on the total and not on the page: its summary has the subnormal number
        ([1, UNIT], 0, 1, {'daz': 1}, VALUE, (0, SUBNORMAL, 0)),
        ([1, UNIT], 0, 1, {'flush': 1}, VALUE, (0, UNDERFLOW + INEXACT + TINY + SUBNORMAL, -1074 - 702)),
        ([UNIT + 1, UNIT], 0, 1, {'precision': 10}, VALUE, (UNIT, INEXACT, -702)),
    ]
    made = []
    for i, (values, start, end, c, summand, wanted) in enumerate(rows):
        s = Span(page_bytes(values), start, end, c, summand, 24 + i % 9, i % 8)
        t = s.total
        assert s.refusal == wanted if isinstance(wanted, int) else (s.refusal, t.result, t.flags, t.edge) == (0, *wanted), (values, start, end, s.refusal)
        made.append(s)
    return made


def value_lists():
    """Lists of few values: each kind of number alone and of either sign, classes side by side, the highest and the lowest bit in one value or in two, at
    each end and amid others."""
    lists = [[]] + [[sign + b] for b in KINDS for sign in (0, MINUS)]
    lists += [[MINUS * (i % 2) + a, MINUS * (i // 2 % 2) + b] for i, (a, b) in enumerate(product((0, UNIT, INFINITE, NOT_A_NUMBER), repeat=2))]
    high, low, both = power(DOUBLE, 100), power(DOUBLE, -90, 1), 0x3ff0000000000001
    lists += [list(order) for order in permutations((high, low, UNIT))]
    lists += [[UNIT, both, UNIT], [high, 0, NOT_A_NUMBER, low, INFINITE], [1, high, MINUS], [SIGNALING, MINUS + SMALL, NORMAL], [MINUS] * 5, [NOT_A_NUMBER] * 2]
    return lists + [[UNIT] * 22, list(KINDS), TWO_VALUES, FIVE_VALUES]


def page_spans():
    """The lists, whole; and every span of pages of 1, 2 and 5 values."""
    made = [Span(page_bytes(values), 0, len(values), {'rounding': i % 8}, i % 3, place=i % 8) for i, values in enumerate(value_lists())]
    for values in ([THOUSAND], TWO_VALUES, FIVE_VALUES):
        made += [Span(page_bytes(values), start, end, place=end) for end in range(len(values) + 1) for start in range(end + 1)]
    return made


def changed(page, at, mask):
    return page[:at] + bytes([page[at] ^ mask]) + page[at + 1:]


def page_of_parts(values, summaries, trailer=None):
    """A page with these summaries, each of three numbers, and this trailer, of three numbers and letters."""
    laid = b''.join(SUMMARY.pack(high, low, kind, bytes(3)) for high, low, kind in summaries)
    n = len(values)
    return page_bytes(values)[:8 * n] + laid + TRAILER.pack(*trailer or (8 * n, n, GROUP, LETTERS))


def damaged_bytes():
    """Every byte of the summary and of the trailer of a page of two values changed, in two ways; every byte of the values, of which some give a page again."""
    page = page_bytes(TWO_VALUES)
    made = [Span(changed(page, at, mask), 0, 2, place=at % 8) for at in range(16, len(page)) for mask in (1 << at % 8, 0x80 if at % 8 != 7 else 0xff)]
    assert all(s.holds == {12} for s in made)
    made += [Span(changed(page, at, mask), 0, 2) for at in range(16) for mask in (1, 0x80)]
    assert {tuple(s.holds) for s in made} == {(), (12,)}
    return made


def damaged_summaries():
    """Summaries that a mistake would give."""
    three = 0x4008000000000000
    rows = [
        # no bit is set, or both are those of 1; the two exchanged; one of them from the other
        ([three], (0, 0, 0)), ([HUNDRED], (2, 6, 0)), ([HUNDRED], (6, 6, 0)), ([HUNDRED], (2, 2, 0)), ([MINUS + HUNDRED], (6, 2, 8)),
        # the unit of the last place for the lowest set bit; the field for the position; the place for the exponent
        ([UNIT], (0, -52, 0)), ([UNIT], (1023, 1023, 0)), ([UNIT], (1, 1, 0)), ([three], (1, -51, 0)), ([three], (2, 1, 0)),
        # subnormal numbers with the least exponent, or as zeros, or as nothing
        ([1], (-1022, -1074, 0)), ([1], (-1023, -1074, 0)), ([1], (0, 0, 4)), ([1], (0, 0, 0)), ([1, UNIT], (0, 0, 0)), ([1, UNIT], (0, 0, 4)),
        ([SMALL], (-1022, -1074, 0)),
        # infinities and NaNs as numbers
        ([INFINITE], (1024, 1024, 2)), ([INFINITE], (1024, 972, 2)), ([NOT_A_NUMBER], (1024, 1023, 1)), ([INFINITE, UNIT], (1024, 0, 2)),
        ([SIGNALING, UNIT], (0, -1074, 1)),
        # zeros as numbers
        ([0], (-1023, -1074, 4)), ([0], (-1074, -1074, 4)), ([0, UNIT], (0, -1074, 4)), ([MINUS], (-1, -1, 4)), ([0, HUNDRED], (6, 0, 4)),
        # of the first value alone, of the last alone, and of all but one
        ([UNIT, HUNDRED], (0, 0, 0)), ([UNIT, HUNDRED], (6, 2, 0)), ([HUNDRED, UNIT], (6, 2, 0)), ([HUNDRED, UNIT], (0, 0, 0)),
        ([UNIT, THOUSAND, three], (9, 3, 0)), ([UNIT, 0], (0, 0, 0)), ([0, UNIT], (0, 0, 0)), ([UNIT, INFINITE], (0, 0, 0)), ([NOT_A_NUMBER, UNIT], (0, 0, 0)),
        ([NOT_A_NUMBER, 0, INFINITE], (0, 0, 4)),
        # classes by one sign alone, by the quiet or by the signaling NaNs alone, counted, exchanged, more
        ([MINUS], (0, 0, 0)), ([MINUS + INFINITE], (0, 0, 0)), ([MINUS + NOT_A_NUMBER], (0, 0, 0)), ([SIGNALING], (0, 0, 0)), ([SIGNALING], (0, 0, 3)),
        ([0, 0], (0, 0, 8)), ([NOT_A_NUMBER] * 2, (0, 0, 2)), ([INFINITE] * 2, (0, 0, 4)), ([0], (0, 0, 2)), ([0], (0, 0, 1)), ([INFINITE], (0, 0, 1)),
        ([INFINITE], (0, 0, 3)), ([NOT_A_NUMBER], (0, 0, 4)), ([0], (0, 0, 12)), ([0], (0, 0, 132)), ([0, MINUS], (0, 0, 12)), ([UNIT], (0, 0, 4)),
        ([UNIT], (0, 0, 8)), ([UNIT], (0, 0, 128)),
        # the sign of a negative position lost, or stretched no further than two bytes
        ([power(DOUBLE, -53)], (53, 53, 0)), ([power(DOUBLE, -53)], (65483, 65483, 0)), ([power(DOUBLE, -53)], (-53, 0, 0)), ([MOST, 1], (1023, 1074, 0)),
    ]
    made = []
    for i, (values, summary) in enumerate(rows):
        made.append(Span(page_of_parts(values, [summary]), 0, len(values), place=i % 8))
        assert made[-1].holds == {12}, (values, summary)
    return made


def damaged_areas():
    """Trailers that do not tell what lies before them, areas of another length, and pages that hold others."""
    page = page_bytes(TWO_VALUES)
    values, summary, trailer = page[:16], page[16:28], page[28:]
    told = lambda *numbers: values + summary + TRAILER.pack(*numbers)
    pages = [told(16, 2, group, LETTERS) for group in (0, 1, 2, 63, 65, 128, 64 << 8, 64 << 24, 2 ** 32 - 64, 2 ** 32 - 1)]
    pages += [told(16, 2, 64, letters) for letters in (b'CPG0', b'CPG2', b'CPG3', b'CPGA', b'cpg1', b'GPC1', b'1GPC', b'CPG\0', bytes(4), b'PG1C', b'CPG\xb1')]
    pages += [told(offset, 2, 64, LETTERS) for offset in (0, 2, 8, 12, 15, 17, 24, 28, 44, 16 << 8, 16 << 24, 2 ** 32 - 28, 2 ** 31 + 16, 2 ** 32 - 1)]
    counts = 0, 1, 3, 4, 65, 1048576, 1048577, 2 ** 28, 2 ** 29, 2 ** 29 + 2, 2 ** 31 + 2, 3 * 2 ** 30 + 2, 2 ** 32 - 1
    pages += [told(8 * n % 2 ** 32, n, 64, LETTERS) for n in counts]
    pages += [told(16, n, 64, LETTERS) for n in (0, 1, 3, 16, 2 << 8, 2 << 24, 2 ** 29 + 2, 2 ** 31 + 2)]
    # big end first, in the trailer, in the summary and in the values
    turned = lambda part, n: b''.join(part[i:i + n][::-1] for i in range(0, len(part), n))
    pages += [values + summary + turned(trailer[:12], 4) + LETTERS, values + turned(summary, 4) + trailer, turned(values, 8) + summary + trailer]
    # the areas in another order, and the fields of the trailer
    pages += [trailer + values + summary, summary + values + trailer, values + trailer + summary]
    pages += [values + summary + LETTERS + trailer[:12], values + summary + trailer[4:8] + trailer[:4] + trailer[8:]]
    # bytes more and less
    for more in (b'\0', bytes(4), bytes(8), bytes(12), summary, trailer):
        pages += [more + page, values + more + summary + trailer, values + summary + more + trailer, page + more]
    pages += [page[1:], page[:-1], page[8:], page[:8] + summary + trailer, values + trailer, values + summary[:4] + trailer, values + summary[:11] + trailer]
    pages += [trailer, summary + trailer]
    pages += [page + page, page_bytes([]) + page, page + page_bytes([]), bytes(7) + page_bytes([]), page_bytes([0]) + page_bytes([])]
    # a longer trailer, of two values and of none
    longer_trailer = lambda n, letters: LONG_TRAILER.pack(8 * n, n, 64, letters)
    pages += [values + summary + longer_trailer(2, LONG_LETTERS), longer_trailer(0, LONG_LETTERS), values + summary + longer_trailer(2, LETTERS)]
    # a page of no values with the summary of an empty group
    pages += [bytes(12) + page_bytes([]), bytes(8) + page_bytes([]), bytes(12) + TRAILER.pack(12, 0, 64, LETTERS)]
    made = [Span(p, 0, i % 2, place=i % 8) for i, p in enumerate(pages)]
    assert all(s.holds == {12} for s in made), [s.page.hex() for s in made if s.holds != {12}]
    return made


def garbage(draw):
    """Bytes of many lengths that are no page: drawn, alike, with the end of a trailer, with a trailer whose count is drawn."""
    made = []
    for i, n in enumerate([*range(34), 36, 43, 44, 47, 48, 52, 60, 63, 64, 65, 71, 72, 80, 87, 96, 104, 127, 128, 129, 136, 150, 152, 175, 184, 192, 199, 200]):
        some = bytes(draw.bits(8) for _ in range(n))
        count = draw.choice([0, 1, 2, n // 8, max(n - 28, 0) // 8, draw.bits(29)])
        page = (some, bytes(n), bytes([draw.choice([255, 0x43, 0x40, 1])]) * n, (some + page_bytes([])[8:])[-n:] if n else b'',
                (some + TRAILER.pack(8 * count % 2 ** 32, count, GROUP, LETTERS))[-n:] if n else b'')[i % 5]
        if page_values(page) is None:
            made.append(Span(page, draw.below(3), draw.choice([0, 1, 2, n // 8, 2 ** 64 - 1]), place=draw.below(8)))
    assert all(12 in s.holds for s in made)
    return made


def bad_spans():
    """Spans that start above their end or end above the count, by one and by far, such that eight times a bound is a small number modulo 2^64 or 2^32; and
    the good ones beside them."""
    made = []
    for values in ([], TWO_VALUES, FIVE_VALUES):
        n, page = len(values), page_bytes(values)
        good = (0, 0), (n, n), (0, n)
        bad = [(1, 0), (n, n + 1), (n + 1, n), (n + 1, n + 1), (0, n + 1), (n + 1, 0), (n, 0) if n else (2, 1), (n, n - 1) if n else (3, 0)]
        bad += [(0, len(page) // 8 + 1), (2 ** 64 - n - 1, n), (2 ** 64 - 1, n), (0, MANY), (MANY, 0), (MANY, MANY)]
        bad += [(0, 2 ** 61), (2 ** 61, 2 ** 61), (2 ** 61, 2 ** 61 + n), (2 ** 61, 0), (0, 2 ** 61 + n)]
        bad += [(2 ** 63, 2 ** 63 + 1), (2 ** 63, 2 ** 63), (2 ** 63 - 1, 2 ** 63), (2 ** 32, 2 ** 32 + n), (0, 2 ** 32), (2 ** 32, 0), (0, 2 ** 29 + n)]
        these = [Span(page, start, end, place=(i + 2) % 8) for i, (start, end) in enumerate((*good, *bad))]
        assert all((s.refusal == 13) == (i >= len(good)) for i, s in enumerate(these))
        made += these
    # the count is the trailer's, and not that of the words that lie there: 13 beside summaries and trailer, within the bytes
    made += [Span(page_bytes(FIVE_VALUES), start, end) for start, end in ((5, 6), (4, 7), (5, 8), (0, 8), (7, 7), (8, 8))]
    return made


BAD_SETTINGS = [{name: most} for name, most in zip(SETTINGS, RANGES)] + [{'precision': 54}, {'precision': 255}, {'rounding': 9}, {'rounding': 15}, {'nan': 7}]


def spoiled_span(numbers, turn):
    """A span of which exactly the conditions of these numbers hold."""
    values = (TWO_VALUES, FIVE_VALUES, [THOUSAND], [])[turn % 4]
    page, n = page_bytes(values), len(values)
    if 12 in numbers:
        page = changed(page, len(page) - 1 - turn % 16, 1 << turn % 8)
    start, end = ((1, 0), (n + 2, 1), (2 ** 64 - 1, 3))[turn % 3] if 13 in numbers else (0, n * (turn % 2))
    if 13 in numbers and 12 not in numbers and turn % 2:
        start, end = ((0, n + 1), (n, 2 ** 64 - 1))[turn // 2 % 2]
    c, summand = (BAD_SETTINGS[turn % len(BAD_SETTINGS)], turn % 3) if 4 in numbers else ({'rounding': turn % 8}, turn % 3)
    if 4 in numbers and turn % 4 == 3:
        c, summand = {}, (3, 4, 15)[turn % 3]
    s = Span(page, start, end, c, summand, (23, 0, 8, 16, 22)[turn % 5] if 2 in numbers else 24 + turn % 9, turn % 8)
    assert s.holds == set(numbers), (numbers, s.holds)
    return s


def page_refusals():
    """Each of 2, 12, 13 and 4 alone, and each two, three and all four at once; each bad setting; answers of each length; an end above the count of a page
    that does not open."""
    some = [more for n in range(1, 5) for more in combinations(PAGE_ORDER, n)]
    made = [spoiled_span(set(numbers), turn) for i, numbers in enumerate(some) for turn in range(i, i + 4)]
    page = page_bytes(FIVE_VALUES)
    made += [Span(page, i % 6, 5, c) for i, c in enumerate(BAD_SETTINGS)] + [Span(page, i % 6, 5, {}, summand) for i, summand in enumerate((3, 4, 8, 15))]
    made += [Span(page, 0, 5, room=room, place=room % 8) for room in range(33)]
    return made + [Span(changed(page, 44, 4), 0, end, c) for end, c in ((6, {}), (2 ** 64 - 1, {}), (6, {'rounding': 8}))]


def beside(draw, values, most=LIST):
    """A page with these values amid others, and the span of them."""
    spare = most - len(values)
    front, back = draw.below(min(spare, 4) + 1), draw.below(min(spare, 8) // 2 + 1)
    others = [any_value(draw, DOUBLE, draw.choice([0, 1023, 2046])) for _ in range(front + back)]
    return page_bytes(others[:front] + values + others[front:]), front, front + len(values)


def page_settings(draw):
    """Each rounding with each summand; each tininess, flush, denormals-are-zero and saturation at the ends of the format; NaNs with payloads by each rule."""
    made = []
    for mode, summand, maker in product(range(8), range(3), (near_tie, cancelling)):
        c, left, _, _ = maker(draw, DOUBLE)
        made.append(Span(*beside(draw, left), {**c, 'rounding': mode}, summand, place=len(made) % 8))
    for i, (tininess, flush, daz, saturate) in enumerate(product(range(2), repeat=4)):
        c = {'rounding': draw.below(8), 'tininess': tininess, 'flush': flush, 'daz': daz, 'saturate': saturate}
        for pool in ([1, 2, SMALL, MINUS + SMALL, NORMAL, MINUS + 1, 0], [MOST, MOST, MINUS + 1, power(DOUBLE, 970), SMALL]):
            made.append(Span(*beside(draw, [draw.choice(pool) for _ in range(4)]), c, i % 3))
    nan = lambda: MINUS * draw.bits(1) + INFINITE + (draw.bits(1) << 51) + draw.between(1, 7)
    for rule, turn in product(range(4), range(4)):
        values = [draw.choice([UNIT, nan(), nan(), INFINITE, 1, 0]) for _ in range(5)] + [nan()] * (turn < 3)
        made.append(Span(*beside(draw, values), {'nan': rule, 'negative': turn % 2}, turn % 3))
    return made


def drawn_spans(draw, count):
    made = []
    for _ in range(count):
        near = draw.choice([0, 1, 2046, 1023, draw.bits(11)])
        values = [any_value(draw, DOUBLE, near) for _ in range(draw.between(1, LIST))]
        if draw.chance(60):
            values = [b if is_finite(b) else MINUS * draw.bits(1) for b in values]
        end = draw.between(0, len(values))
        made.append(Span(page_bytes(values), draw.between(0, end), end, settings(draw, DOUBLE), draw.below(3), draw.choice([24, 31, 32]), draw.below(8)))
    return made


def spans():
    draw = Draw(800)
    made = page_examples() + page_spans() + damaged_bytes() + damaged_summaries() + damaged_areas() + garbage(draw) + bad_spans() + page_refusals()
    return made + page_settings(draw) + drawn_spans(draw, 40)


def long_values(draw, n):
    """Values of which each group has a highest and a lowest bit of its own, and its own classes."""
    values = []
    for g in range(-(-n // GROUP)):
        base = 300 - 250 * g
        values += [power(DOUBLE, base - draw.below(60), draw.bits(1), draw.bits(20) << 32) for _ in range(min(GROUP, n - GROUP * g))]
        for b in ((0, MINUS), (), (MINUS,))[g]:
            values[draw.between(GROUP * g, len(values) - 1)] = b
    return values


def long_pages(draw):
    """Good pages of a group less one, a group, and one more, of two groups likewise, with spans within a group and over their borders; bad spans."""
    made = []
    for n in (63, 64, 65, 127, 128, 129):
        values = long_values(draw, n)
        page = page_bytes(values)
        some = [(0, n), (n - 1, n), (n, n), (62, min(66, n)), (draw.below(n), n)] + [(60, 125)] * (n > 125)
        made += [Span(page, start, end, settings(draw, DOUBLE), i % 3, place=(n + i) % 8) for i, (start, end) in enumerate(some)]
        made += [Span(page, 0, n + 1), Span(page, n, n - 1)]
    # classes in one group alone, in the first value and in the last
    for at, b in ((0, NOT_A_NUMBER), (63, MINUS + INFINITE), (64, SIGNALING), (127, 0), (128, INFINITE), (128, NOT_A_NUMBER), (128, 1), (64, MOST)):
        values = [UNIT] * 129
        values[at] = b
        made.append(Span(page_bytes(values), max(at - 1, 0), at + 1))
    return made


def long_damage(draw):
    """A summary of a group changed, exchanged with another's, made of other groups, or left out."""
    values = long_values(draw, 129)
    page, own = page_bytes(values), [page_summary(group) for group in in_groups(values)]
    made = [Span(changed(page, 8 * 129 + 12 * g + i, 1 << (g + i) % 8), 0, 64, place=i % 8) for g, i in product(range(3), (0, 3, 4, 7, 8, 9, 11))]
    first, second, third = own
    pages = [page_of_parts(values, summaries) for summaries in (
        [second, first, third], [first, third, second], [third, first, second], [first] * 3, [page_summary(values)] * 3, [first, second, (0, 0, 0)],
        [first, second], [first, second, third, third])]
    # groups of 63, of 65, of 32, and a short one in front
    for n, size in ((129, 63), (129, 65), (129, 43), (65, 63), (65, 33), (128, 65), (64, 63), (64, 32), (65, 65), (128, 128)):
        pages.append(page_of_parts(values[:n], [page_summary(values[i:min(i + size, n)]) for i in range(0, n, size)]))
    pages += [page_of_parts(values[:65], [page_summary(values[:1]), page_summary(values[1:65])]), page_of_parts(values[:65], [page_summary(values[:64])])]
    # another number of a group in the trailer; a value of the last group changed; the trailer's of a page with one value less
    pages.append(page_of_parts(values, [page_summary(values)], (8 * 129, 129, 129, LETTERS)))
    pages += [changed(page, 8 * 128 + 7, 0x40), changed(page, 8 * 64 + 7, 0x40), changed(page, 8 * 63 + 7, 0x40)]
    pages += [page_of_parts(values[:128], own[:2], (8 * 127, 127, GROUP, LETTERS)), page_of_parts(values[:64], own[:1], (8 * 65, 65, GROUP, LETTERS))]
    made += [Span(p, 0, i % 3, place=i % 8) for i, p in enumerate(pages)]
    assert all(s.holds == {12} for s in made), [i for i, s in enumerate(made) if s.holds != {12}]
    return made


def long_spans():
    draw = Draw(801)
    return long_pages(draw) + long_damage(draw)


def written_pages():
    """The lists in a destination of just their length; and pages of 0, 1, 2, 5 and 22 values in shorter and longer ones: without room for the summaries, for
    the trailer, for one byte."""
    made = [Written(values, len(page_bytes(values)), i % 8, (PATTERN + 5 * i) % 256) for i, values in enumerate(value_lists())]
    for values in ([], [THOUSAND], TWO_VALUES, FIVE_VALUES, [INFINITE, 0] * 11):
        n, m = len(values), len(page_bytes(values))
        rooms = {0, 8 * n, 8 * n + 12, 8 * n + 16, m - 16, m - 12, m - 8, m - 1, m, m + 1, m + 3, m + 4, m + 7, m + 8, m + 12, m + 16, PAGE}
        made += [Written(values, room, (n + room) % 8, room * 7 % 256) for room in sorted(rooms) if 0 <= room <= PAGE]
    draw = Draw(802)
    for _ in range(12):
        values = [any_value(draw, DOUBLE, draw.choice([0, 1, 1023, 2046])) for _ in range(draw.between(2, LIST))]
        made.append(Written(values, draw.between(len(page_bytes(values)), PAGE), draw.below(8), draw.bits(8)))
    return made


def long_written():
    """Pages of a group less one, a group, and one more, of two groups likewise."""
    draw = Draw(803)
    made = []
    for n in (63, 64, 65, 127, 128, 129):
        values = long_values(draw, n)
        m = len(page_bytes(values))
        made += [Written(values, room, draw.below(8), draw.bits(8)) for room in (m, m - 1, m + draw.between(1, 12), m - 12)]
    for at, b in ((0, NOT_A_NUMBER), (63, 0), (64, INFINITE), (128, 1)):
        values = [MINUS + UNIT] * 129
        values[at] = b
        made.append(Written(values, LONG_PAGE))
    return made


def cover_pages(every, written):
    accepted = [s for s in every if s.refusal == 0]
    print('%5d  spans of pages, %d of them accepted' % (len(every), len(accepted)))
    each = lambda rows, of: [(r, kind) for r in rows for kind in of(r)]
    second = lambda pair: (pair[1],)
    fewest('values of a page, 0, 1, 2, 5, 63 to 65, 127 to 129', accepted, lambda s: (len(s.values),), (0, 1, 2, 5, 63, 64, 65, 127, 128, 129))
    fewest('empty spans, whole pages, spans from the first value, to the last, and amid others', accepted,
           lambda s: (s.start == s.end or (s.start == 0, s.end == len(s.values)),), (True, (True, True), (True, False), (False, True), (False, False)))
    fewest('spans within a group, and over a border', [s for s in accepted if s.start < s.end],
           lambda s: (s.start // GROUP != (s.end - 1) // GROUP,), (False, True))
    fewest('rounding and summand', accepted, lambda s: (s.c['rounding'], s.summand), range(8), range(3))
    switches = lambda s: tuple(s.c[name] for name in ('tininess', 'flush', 'daz', 'saturate'))
    fewest('tininess, flush, denormals are zero, saturation', accepted, switches, *[range(2)] * 4)
    fewest('spans with a NaN, by rule', [s for s in accepted if s.total.has_nan()], lambda s: (s.c['nan'],), range(4))
    fewest('passes, 0 to 3', accepted, lambda s: (s.total.passes,), range(4))
    fewest('side', accepted, lambda s: (s.total.leans,), range(4))
    fewest('classes of a group', each([s for s in every if s.values], lambda s: {page_summary(g)[2] for g in in_groups(s.values)}), second, range(8))
    fewest('refusals alone and several at once', [s for s in every if s.holds], lambda s: (tuple(sorted(s.holds)),),
           [tuple(sorted(some)) for n in range(1, 5) for some in combinations(PAGE_ORDER, n)])
    fewest('13 by a start above the end, by an end above the count, by both', [s for s in every if s.holds == {13}],
           lambda s: ((s.start > s.end) + 2 * (s.end > len(s.values)),), (1, 2, 3))
    fewest('length of the answer, 0 to 32', every, lambda s: (s.room,), range(33))
    fewest('place of a page, 0 to 7', accepted, lambda s: (s.place,), range(8))
    taken = [w for w in written if w.returned != 2]
    print('%5d  pages to be written, %d of them accepted' % (len(written), len(taken)))
    fewest('values, 0, 1, 2, 5, 22, 63 to 65, 127 to 129, by destination: short, exact, longer', written,
           lambda w: (len(w.values), min(max(w.room - len(page_bytes(w.values)), -1), 1)), (0, 1, 2, 5, 22, 63, 64, 65, 127, 128, 129), (-1, 0, 1))
    fewest('classes of a group', each(taken, lambda w: {page_summary(g)[2] for g in in_groups(w.values)}), second, range(8))
    fewest('place of a destination, 0 to 7', taken, lambda w: (w.place,), range(8))


def page_parts():
    """The parts of pages, each with its name, its rows, the most bytes of a page in them, and what reads one."""
    return [('spans of pages', spans(), PAGE, span_of), ('spans of longer pages', long_spans(), LONG_PAGE, span_of),
            ('pages written', written_pages(), PAGE, written_of), ('longer pages written', long_written(), LONG_PAGE, written_of)]


# ---- values of ten bytes

TEN = Extended()
TEN_FORMAT = 4, 15, 80, None
TEN_ROW, TEN_BYTES, TEN_BUFFER = 496, 128, 40


def laid_tens(values):
    return b''.join(v.to_bytes(10, 'little') for v in values)


class Tens:
    """A call of a byte entry with lists of bytes, and what it answers. A right list makes it a dot."""

    def __init__(self, note, c, left, right=None, summand=VALUE, f=TEN_FORMAT, room=32, first=0xa0):
        as_bytes = lambda given: laid_tens(given) if isinstance(given, list) else given
        self.note, self.c, self.summand, self.f, self.room, self.first = note, {**PLAIN, **c}, summand, f, room, first
        self.left, self.right = as_bytes(left), as_bytes(right)
        self.holds = ten_conditions(f, self.c, summand, self.left, self.right, room)
        self.returned = min(self.holds, default=0)
        self.record = None if self.holds else self.worked()

    def worked(self):
        assert self.f == TEN_FORMAT
        values = lambda given: [int.from_bytes(given[i:i + 10], 'little') for i in range(0, len(given), 10)]
        self.values = values(self.left), values(self.right or b'')
        return sum_record(TEN, self.c, self.summand, self.values[0]) if self.right is None else dot_record(TEN, self.c, *self.values)

    def before(self):
        return bytes((self.first + 7 * i) % 256 for i in range(TEN_BUFFER))

    def after(self):
        if self.holds:
            return self.before()
        r = self.record
        return r.result.to_bytes(10, 'little') + bytes([r.flags, r.leans]) + bytes(12) + r.passes.to_bytes(8, 'little') + self.before()[32:]

    def row(self):
        dot = self.right is not None
        kind, e, w, bias = self.f
        half = TEN_BYTES // 2 if dot else TEN_BYTES
        assert len(self.left) <= half and len(self.right or b'') <= half and len(self.note) <= 20
        head = '%s %x %02x %02x %s %02x %x %02x %02x %02x %x %s %s %03x' % (
            'd' if dot else 's', kind, e, w, ''.join('%x' % self.c[name] for name in SETTINGS[:7]), self.c['precision'], self.summand, len(self.left),
            len(self.right or b''), self.room, bias is not None, signed(bias or 0, 16), self.note.ljust(20, '.'), self.returned)
        lists = self.left.ljust(half, b'\x5c') + (self.right or b'').ljust(TEN_BYTES - half, b'\x5c')
        text = ' '.join([head, self.before().hex(), self.after().hex(), lists.hex()]) + '\n'
        assert len(text) == TEN_ROW
        return text

    def line(self):
        """An accepted call as the oracle reads it."""
        head = ['dot' if self.right is not None else 'sum', 4, 15, 80] + [self.c[name] for name in SETTINGS] + [self.summand, len(self.values[0])]
        return ' '.join([str(h) for h in head] + ['%x' % v for v in self.values[0] + self.values[1]])


def tens_of(row):
    """The call of a row, with the model's answer."""
    number = lambda at, digits: int(row[at:at + digits], 16)
    c = {name: number(10 + i, 1) for i, name in enumerate(SETTINGS[:7])}
    c['precision'] = number(18, 2)
    lists = bytes.fromhex(row[239:239 + 2 * TEN_BYTES])
    left, right = lists[:number(23, 2)], lists[TEN_BYTES // 2:TEN_BYTES // 2 + number(26, 2)] if row[0] == 'd' else None
    f = number(2, 1), number(4, 2), number(7, 2), number(34, 17) if number(32, 1) else None
    return Tens(row[52:72].rstrip('.'), c, left, right, number(21, 1), f, number(29, 2), number(77, 2))


# the exponent of a power of two, and its sign
ten = lambda n, negative=0, rest=0: power(TEN, n, negative, rest)
field = lambda x, m, negative=0: TEN.sign * negative + (x << 64) + m
TEN_ONE, TEN_MOST, TEN_NORMAL = ten(0), TEN.largest(0, 64), field(1, 1 << 63)
TEN_INFINITE = TEN.infinity(0)
QUIET, TEN_SIGNALING = TEN.nan(0, 5), TEN_INFINITE + 9
# unnormals, a pseudo-infinity and pseudo-NaNs: a field above 0 over a leading bit of 0
UNNORMALS = [field(1, 0), field(1, 1), field(1, 2 ** 63 - 1), field(16383, 0), field(16383, 1 << 62), field(32766, 2 ** 63 - 1)]
PSEUDO_INFINITY, PSEUDO_NANS = field(32767, 0), [field(32767, 1), field(32767, 1 << 62), field(32767, 2 ** 63 - 1)]
STRAYED = UNNORMALS + [PSEUDO_INFINITY] + PSEUDO_NANS
# a field of 0 under a leading bit
PSEUDO_DENORMALS = [field(0, 1 << 63), field(0, 2 ** 63 + 1), field(0, 2 ** 64 - 1), field(0, 3 << 62)]


def ten_examples():
    """Worked out by hand: the answers stand here."""
    minus = TEN.sign
    rows = [
        ('least normal', {}, [PSEUDO_DENORMALS[0]], None, 0x00018000000000000000, 0x80, 1, 0),
        ('1 and 2^-64', {}, [TEN_ONE, ten(-64)], None, TEN_ONE, 0x10, 1, 1),
        ('1, 2^-64 and a trace', {}, [TEN_ONE, ten(-64), ten(-16382)], None, TEN_ONE + 1, 0x50, 22, 2),
        ('2^16000, 1, -2^16000', {}, [ten(16000), TEN_ONE, ten(16000, 1)], None, TEN_ONE, 0, 21, 0),
        ('an unnormal', {}, [UNNORMALS[3]], None, 0x7fffc000000000000000, 1, 0, 3),
        ('an unnormal', {'negative': 1}, [UNNORMALS[3]], None, 0xffffc000000000000000, 1, 0, 3),
        ('most and least', {}, [TEN_MOST, TEN_MOST + minus, 1], [TEN_MOST, TEN_MOST, 1], 0, 0xb8, 86, 1),
        ('2^16000 - 2^-8000', {}, [ten(8000), ten(-8000, 1)], [ten(8000), TEN_ONE], 0x7e7f8000000000000000, 0x50, 32, 2),
        ('no values', {}, [], None, 0, 0, 0, 0),
        ('no values, downward', {'rounding': DOWN}, [], [], 0, 0, 0, 0),
        ('1 and -1', {}, [TEN_ONE, TEN_ONE + minus], None, 0, 0, 1, 0),
        ('1 and -1, downward', {'rounding': DOWN}, [TEN_ONE, TEN_ONE + minus], None, minus, 0, 1, 0),
        ('most, twice', {}, [TEN_MOST] * 2, None, TEN_INFINITE, 0x54, 1, 3),
        ('most, twice, to zero', {'rounding': TO_ZERO}, [TEN_MOST] * 2, None, TEN_MOST, 0x14, 1, 1),
        ('the least number', {}, [1], None, 1, 0xa0, 1, 0),
        ('square of 2^-9000', {}, [ten(-9000)], None, 0, 0x38, 1, 1),
        ('magnitude of -inf', {}, [TEN_INFINITE + minus, QUIET], None, TEN_INFINITE, 0, 0, 3),
    ]
    made = []
    for note, c, left, right, result, flags, passes, side in rows:
        summand = SQUARE if note.startswith('square') else MAGNITUDE if note.startswith('magnitude') else VALUE
        t = Tens(note, c, left, right, summand)
        r = t.record
        assert (r.result, r.flags, r.passes, r.leans) == (result, flags, passes, side), (note, '%x' % r.result, r.flags, r.passes, r.leans)
        made.append(t)
    return made


def ten_unsupported():
    """Each alone, in every total; before, after and beside NaNs, infinities, zeros and numbers; in a dot on either side and in a pair with each."""
    others = [QUIET, TEN_SIGNALING + TEN.sign, TEN_INFINITE, TEN_INFINITE + TEN.sign, 0, TEN_ONE, 1, PSEUDO_DENORMALS[1]]
    made = []
    for i, b in enumerate(STRAYED):
        c = {'nan': i % 4, 'negative': i % 2, 'rounding': i % 8}
        made += [Tens('unsupported', c, [b ^ TEN.sign * (i % 3 == 0)], None, i % 3), Tens('unsupported', {'daz': 1}, [b + TEN.sign], [TEN_ONE])]
        other, next_ = others[i % 8], others[(i + 3) % 8]
        made += [Tens('unsupported first', c, [b, other], None, i % 3), Tens('unsupported last', c, [other, next_, b])]
        made += [Tens('unsupported, a pair', c, [other, next_], [b, TEN_ONE]), Tens('unsupported, a pair', {'daz': i % 2}, [TEN_ONE, b], [next_, other])]
    for other in others:
        made += [Tens('unsupported between', {'nan': 1}, [other, PSEUDO_NANS[0], other]), Tens('unsupported, a pair', {}, [PSEUDO_INFINITY], [other])]
    # an infinity times zero, infinities of both signs and a signaling NaN beside it
    made += [Tens('unsupported, inf * 0', {}, [TEN_INFINITE, UNNORMALS[0]], [0, TEN_ONE]), Tens('unsupported, inf', {}, [*others[2:4], UNNORMALS[5]]),
             Tens('unsupported, two', {'negative': 1}, [UNNORMALS[1], PSEUDO_NANS[2]], [PSEUDO_INFINITY, UNNORMALS[4]])]
    return made


def ten_subnormal():
    """Pseudo-denormals and subnormal numbers in the four totals, taken as zeros and not."""
    made = []
    for daz in range(2):
        c = {'daz': daz}
        for i, b in enumerate(PSEUDO_DENORMALS + [1, 2 ** 63 - 1]):
            made += [Tens('field 0', {**c, 'rounding': (3 * i + u) % 8}, [b + TEN.sign * (u == 0)], None, u) for u in range(3)]
            made += [Tens('field 0', c, [b, TEN_ONE], [ten(16000), ten(-500)]), Tens('field 0', c, [b], [PSEUDO_DENORMALS[i % 4]])]
        made += [Tens('field 0 cancels', c, [PSEUDO_DENORMALS[0], TEN_NORMAL + TEN.sign]), Tens('field 0 and 1', c, [PSEUDO_DENORMALS[2], TEN_NORMAL, 1]),
                 Tens('field 0, both signs', c, [PSEUDO_DENORMALS[0] + TEN.sign, PSEUDO_DENORMALS[0]]),
                 Tens('inf by field 0', c, [TEN_INFINITE], [PSEUDO_DENORMALS[0]]), Tens('-field 0 alone', c, [PSEUDO_DENORMALS[1] + TEN.sign])]
    return made


def ten_roundings():
    """Each rounding, sign and side of a tie, at the least digit; then below, on and above a tie by a term that the first window does not reach."""
    made = []
    for mode, negative in product(range(8), range(2)):
        c = {'rounding': mode}
        number = lambda odd: ten(3, negative, 2 + odd)
        half = ten(3 - 64, negative)
        for odd, more in ((0, [ten(3 - 65, negative)]), (0, [half]), (1, [half]), (1, [half, ten(3 - 70, negative)])):
            made.append(Tens('tie at 64 digits', c, [number(odd)] + more))
        far = ten(-8000)
        for more in ([far, far ^ TEN.sign], [far ^ TEN.sign * negative], [far ^ TEN.sign * (1 - negative)]):
            made.append(Tens('beside a boundary', c, [number(mode % 2), half] + more))
        made.append(Tens('tie of magnitudes', c, [number(1), half ^ TEN.sign], None, MAGNITUDE) if negative else
                    Tens('tie of squares', c, [TEN_ONE, ten(-32)], None, SQUARE))
    return made


def ten_overflows():
    """Far beyond the largest number, and half a unit of it, and less."""
    made = []
    half = 16383 - 64
    for mode, negative, saturate in product(range(8), range(2), range(2)):
        c = {'rounding': mode, 'saturate': saturate}
        signs = TEN.sign * negative
        made.append(Tens('overflow', c, [TEN_MOST + signs, TEN_MOST + signs]))
        made.append(Tens('largest and half', c, [TEN_MOST + signs, ten(half, negative)] + [[], [ten(half - 1000, 1 - negative)]][mode % 2]))
    made += [Tens('overflow of squares', {'rounding': mode}, [ten(9000)], None, SQUARE) for mode in (EVEN, DOWN, TO_ZERO)]
    return made


def ten_tiny():
    """Results among the subnormal numbers and beside the least normal one; flushed and not."""
    made = []
    for mode, tininess in product(range(8), range(2)):
        c = {'rounding': mode, 'tininess': tininess}
        negative = mode % 2
        # the least normal number less a quarter of the least one, as a product; and products that fall between two least numbers
        made.append(Tens('just below normal', c, [TEN_NORMAL + TEN.sign * negative, ten(-16382, 1 - negative)], [TEN_ONE, ten(-65)]))
        made.append(Tens('tiny product', c, [ten(-16000, negative, 12345), ten(-8000)], [ten(-400), ten(-8440)]))
        made.append(Tens('tiny, flushed', {**c, 'flush': 1}, [TEN_NORMAL + TEN.sign * negative, ten(-16382, 1 - negative)], [TEN_ONE, ten(-1)]))
    made += [Tens('subnormal sum', {'daz': d}, [TEN_NORMAL, field(1, 2 ** 63 + 5, 1), 3]) for d in range(2)]
    return made


def ten_precisions():
    """Every precision: a tie at q digits, or a trace beside it."""
    made = []
    for q in range(1, 65):
        c = {'rounding': q % 8, 'precision': q}
        last = [ten(-q, q % 3 == 0)] + [[], [ten(-q - 700, 1)], [ten(-9000)]][q % 3]
        made.append(Tens('precision', c, [ten(0, q % 3 == 0)] + last) if q % 5 else Tens('precision', c, [TEN_ONE, ten(-q)], [ten(16383 - 1), ten(16383 - 1)]))
    return made


def ten_specials():
    """NaNs by each rule, of either sign and with payloads; infinities; zeros."""
    minus = TEN.sign
    lists = [[QUIET, TEN_SIGNALING], [TEN_SIGNALING + minus, QUIET], [TEN.nan(1, 7), TEN.nan(0, 2 ** 62 - 1)], [TEN.nan(0, 3), TEN.nan(1, 3)],
             [TEN_ONE, TEN_INFINITE + (1 << 62) - 1, QUIET], [TEN_INFINITE, TEN.nan(0, 0)]]
    made = []
    for rule in range(4):
        c = {'nan': rule, 'negative': rule % 2}
        made += [Tens('NaNs', c, values, None, i % 3) for i, values in enumerate(lists)]
        made += [Tens('NaNs, a dot', c, [TEN_ONE, TEN_INFINITE], [TEN_SIGNALING, 0]), Tens('NaNs, a dot', c, [TEN.nan(1, 1)], [TEN.nan(0, 2)])]
    infinite, zeros = [TEN_INFINITE, TEN_INFINITE + minus], [0, minus]
    for summand in range(3):
        made += [Tens('infinities', {'saturate': 1}, some, None, summand) for some in (infinite, infinite[1:], [TEN_ONE, infinite[1], TEN_MOST])]
        made += [Tens('infinity and NaN', {}, [infinite[1], nan], None, summand) for nan in (QUIET, TEN_SIGNALING)]
    made += [Tens('inf by 0', {}, [x], [y]) for x, y in (
        (infinite[0], minus), (0, infinite[1]), (infinite[1], TEN_ONE + minus), (infinite[0], TEN_ONE + minus))]
    for mode in (EVEN, UP, DOWN):
        made += [Tens('zeros', {'rounding': mode}, some, None, u) for u, some in (
            (0, zeros), (0, zeros[1:]), (1, zeros[1:]), (0, [TEN_ONE, minus, TEN_ONE + minus]))]
        made.append(Tens('zeros, a dot', {'rounding': mode}, zeros, [TEN_ONE + minus, TEN_ONE]))
    return made


def ten_refusals():
    """Lists and buffers of every length near the limits; each wrong E, W and setting; a bias; lists of different lengths; several at once."""
    made = []
    values = laid_tens([TEN_ONE, QUIET, TEN_MOST])
    for n in (0, 1, 8, 9, 10, 11, 16, 19, 20, 21, 24, 29, 30):
        made += [Tens('length', {}, values[:n], first=n), Tens('length', {}, values[:n], values[:n]), Tens('length', {}, values[:10], values[:n]),
                 Tens('length', {}, values[:n], values[:20])]
    for room in (0, 8, 10, 12, 23, 24, 25, 30, 31, 32, 33, 39, 40):
        made += [Tens('room', {}, [TEN_ONE, ten(-64)], room=room, first=5 * room), Tens('room', {}, [TEN_ONE], [UNNORMALS[0]], room=room)]
    others = [(4, e, 80, None) for e in (0, 2, 11, 14, 16, 28, 79, 255)] + [(4, 15, w, None) for w in (0, 16, 64, 79, 81, 96, 128, 255)]
    others += [(4, 15, 80, b) for b in (0, 16383, -1, 2 ** 28, -2 ** 28, 2 ** 28 + 1, 2 ** 63 - 1)] + [(4, 14, 80, 16383), (4, 11, 64, None)]
    for i, f in enumerate(others):
        made += [Tens('no format', {}, [TEN_ONE], f=f, room=(32, 31)[i % 5 == 4]),
                 Tens('no format', {'precision': 65 * (i % 3 == 2)}, [TEN_ONE], [TEN_ONE] * (i % 4), f=f)]
    # kind 4 alone takes ten bytes
    for kind, e, w in ((0, 15, 80), (0, 15, 79), (3, 15, 80), (5, 15, 80), (12, 15, 80)):
        made += [Tens('another kind', {}, (values + values)[:n], f=(kind, e, w, None), room=room) for n, room in ((10, 32), (40, 24), (40, 23))]
    for i, (name, most) in enumerate(zip(SETTINGS, RANGES + (65,))):
        made += [Tens('setting', {name: most}, [TEN_ONE, 1]), Tens('setting', {name: most + 1}, [TEN_ONE], [UNNORMALS[2]] * (1 + i % 2))]
    made += [Tens('summand', {}, [TEN_ONE], None, u) for u in (3, 4, 15)] + [Tens('precision', {'precision': q}, [TEN_ONE]) for q in (66, 80, 255)]
    made += [Tens('1, 2 and 3', {}, values[:9], room=31, f=(4, 15, 64, None)), Tens('2 and 3', {}, [TEN_ONE], room=31, f=(4, 11, 80, None)),
             Tens('3 and 4', {'rounding': 8}, [TEN_ONE], f=(4, 15, 64, None)), Tens('4 and 5', {'precision': 65}, [TEN_ONE], [TEN_ONE, TEN_ONE]),
             Tens('2, 4 and 5', {'precision': 65}, [TEN_ONE], [TEN_ONE, TEN_ONE], room=24), Tens('1 and 5', {}, values[:11], values[:20]),
             Tens('3 and 5', {}, [TEN_ONE], [], f=(4, 15, 80, 0))]
    return made


def any_ten(draw, near):
    """A value of any sort, many of them near an exponent field."""
    if draw.chance(4):
        return draw.choice(STRAYED + [QUIET, TEN_SIGNALING, TEN_INFINITE]) ^ TEN.sign * draw.bits(1)
    if draw.chance(8):
        return field(0, draw.choice([0, 1, 1 << 63, draw.bits(64)]), draw.bits(1))
    far = draw.choice([0, 0, 1, -1, 64, -64, -128, -70, -700, -1400, draw.between(-80, 80), draw.between(-9000, 9000)])
    return power(TEN, near + far - 16383, draw.bits(1), draw.choice([0, 1, 2 ** 63 - 1, 1 << 62, draw.bits(63)]))


def mixed_tens(draw, f):
    near = draw.choice([1, 16383, 24000, 32766, draw.between(1, 32766)])
    left = [any_ten(draw, near) for _ in range(draw.between(1, 5))]
    if draw.chance(40):
        left.append(draw.choice(left) ^ f.sign)
    right = [any_ten(draw, draw.choice([16383, 32767 - near])) for _ in left] if draw.chance(40) else None
    return settings(draw, f), left, right, draw.choice([0, 0, 1, 2]) if right is None else VALUE


def ten_drawn(draw, n):
    makers = mixed_tens, near_tie, cancelling, staircase, descent
    return [Tens('drawn', *made, room=draw.between(32, 40), first=draw.bits(8)) for made in (makers[i % 5](draw, TEN) for i in range(n))]


def tens():
    return (ten_examples() + ten_unsupported() + ten_subnormal() + ten_roundings() + ten_overflows() + ten_tiny() + ten_precisions() + ten_specials()
            + ten_refusals() + ten_drawn(Draw(80), 60))


def cover_tens(every):
    accepted = [t for t in every if not t.holds]
    print('%5d  calls with values of ten bytes, %d of them accepted' % (len(every), len(accepted)))
    total = lambda t: 3 if t.right is not None else t.summand
    where = lambda holds: [t for t in accepted if holds(t)]
    has = lambda t, test: any(test(v) for values in t.values for v in values)
    sort = lambda t: {TEN.decode(v)[0] for values in t.values for v in values}
    fewest('sum, magnitudes, squares, dot; rounding', accepted, lambda t: (total(t), t.c['rounding']), range(4), range(8))
    fewest('an unsupported encoding, in each total', where(lambda t: 'unsupported' in sort(t)), lambda t: (total(t),), range(4))
    fewest('an unsupported encoding beside a NaN, an infinity, a zero, a number', [(t, k) for t in accepted for k in sort(t) if 'unsupported' in sort(t)],
           lambda pair: (pair[1],), ('nan', 'infinity', 'zero', 'number'))
    pseudo = lambda v: v >> 64 & TEN.ones == 0 and v & TEN.leading
    fewest('a pseudo-denormal by denormals-are-zero, in each total', where(lambda t: has(t, pseudo)), lambda t: (t.c['daz'], total(t)), range(2), range(4))
    fewest('lists with a NaN and none unsupported, by rule', where(lambda t: sort(t) >= {'nan'} and 'unsupported' not in sort(t)),
           lambda t: (t.c['nan'],), range(4))
    fewest('rounding, sign, side of a tie (below, on even, on odd, above)', accepted,
           lambda t: (t.c['rounding'], t.record.negative, t.record.side), range(8), range(2), ('below', 'on', 'on odd', 'above'))
    fewest('rounding, sign, side of a boundary (below, on, above)', accepted,
           lambda t: (t.c['rounding'], t.record.negative, t.record.end), range(8), range(2), ('below', 'on', 'above'))
    fewest('overflow by rounding, sign, saturation', where(lambda t: t.record.flags & OVERFLOW),
           lambda t: (t.c['rounding'], t.record.negative, t.c['saturate']), range(8), range(2), range(2))
    fewest('tiny by rounding, tininess', where(lambda t: t.record.flags & TINY), lambda t: (t.c['rounding'], t.c['tininess']), range(8), range(2))
    fewest('precision, 0 to 64', accepted, lambda t: (t.c['precision'],), range(65))
    fewest('side', accepted, lambda t: (t.record.leans,), range(4))
    print('%5d  passes of the longest chain' % max(t.record.passes for t in accepted))
    fewest('length of the buffer, 23 to 25, 30 to 33, 39, 40', every, lambda t: (t.room,), (23, 24, 25, 30, 31, 32, 33, 39, 40))
    fewest('one refusal alone', [t for t in every if len(t.holds) == 1 and t.f[0] == 4], lambda t: tuple(t.holds), range(1, 6))
    fewest('3 for E, for W, for a bias', [t for t in every if t.returned == 3 and t.f[0] == 4],
           lambda t: ((t.f[1] != 15) + 2 * (t.f[2] != 80) + 4 * (t.f[3] is not None),), (1, 2, 4))


# ---- lists of kind 4 of which nothing is added, each as so many words and bytes more: whole values of ten bytes, of eight, of both and of neither

KIND_4_LISTS = ((0, 0), (1, 0), (1, 1), (1, 2), (1, 3), (2, 0), (2, 3), (2, 4), (2, 5), (3, 0), (3, 6), (4, 0), (5, 0), (5, 1), (6, 2), (7, 4), (8, 0), (8, 6), (10, 0),
                (11, 2))
KIND_4_FORMATS = ((4, 15, 80), (4, 15, 80, 16383), (4, 11, 64), (4, 0, 0), (4, 15, 80, 0, 1))


# ---- one total, several formats

INTO_ROW, INTO_NUMBERS, INTO_LIST, INTO_BUFFER, INTO_NOTE = 1371, 39, 13, 104, 24
SINGLE, HALFWIDTH, BFLOAT = (0, 8, 32), (0, 5, 16), (0, 8, 16)


def five(f):
    """The five numbers of a format (kind, E, W), of one that names its bias (kind, E, W, bias), or of one that is given by all five."""
    return {3: lambda: (*f, 0, 0), 4: lambda: (*f[:3], 1, f[3]), 5: lambda: f}[len(f)]()


def format_of(numbers):
    """The format (kind, E, W, bias) of five numbers, and whether it is named as a whole."""
    bias, whole = named_bias(*numbers[3:])
    return (*numbers[:3], bias), whole


class Aim:
    """A target beside a list: a format, settings, and what the call answers for it."""

    def __init__(self, numbers, daz, values, target):
        t, c = target
        self.numbers, self.c = five(t), {**PLAIN, **c}
        (f, f_whole), (t, t_whole) = format_of(numbers), format_of(self.numbers)
        self.holds = target_conditions(f, f_whole, daz, values, t, t_whole, self.c)
        self.refusal = next((n for n in TARGET_ORDER if n in self.holds), 0)
        self.place = stray(f[2], values)[0] if self.refusal == 7 else 0
        self.record = None
        if not self.refusal:
            self.f, self.t = Format(*f), Format(*t)
            self.record = target_record(self.f, daz, values, self.t, self.c)

    def words(self):
        return [n % 2 ** 64 for n in self.numbers] + [self.c[name] for name in SETTINGS]

    def slot(self):
        if self.refusal:
            return (self.refusal + 256 * self.place).to_bytes(32, 'little')
        r = self.record
        return bytes(8) + r.result.to_bytes(8, 'little') + bytes([r.flags, 0, r.leans]) + bytes(5) + r.passes.to_bytes(8, 'little')


class Several:
    """A call of the entry with a list and three targets, each a format with settings, and what it answers."""

    def __init__(self, note, f, values, targets, daz=0, size=312, more=0, room=96, first=0xa0):
        self.note, self.numbers, self.values, self.daz = note, five(f), values, daz
        self.size, self.more, self.room, self.first = size, more, room, first
        self.targets = targets
        self.aims = [Aim(self.numbers, daz, values, target) for target in targets]
        self.holds = entry_conditions(self.numbers[0], values, more, size, room)
        self.returned = min(self.holds, default=0)

    def before(self):
        return bytes((self.first + 7 * i) % 256 for i in range(INTO_BUFFER))

    def after(self):
        return self.before() if self.returned else b''.join(aim.slot() for aim in self.aims) + self.before()[96:]

    def row(self):
        kind, e, w, named, bias = self.numbers
        lent = 8 * len(self.values) + self.more
        assert len(self.note) <= INTO_NOTE and lent <= 8 * INTO_LIST and len(self.aims) == 3
        head = 'i %x %02x %02x %x %s %x %03x %02x %02x %x %s' % (
            kind, e, w, named, signed(bias, 16), self.daz, self.size, lent, self.room, self.returned, self.note.ljust(INTO_NOTE, '.'))
        # what stands behind the list is no zero, and has bits that are stray in most formats
        values = self.values + [0x5a5a5a5a5a5a5a5a] * (INTO_LIST - len(self.values))
        words = [n for aim in self.aims for n in aim.words()] + values
        text = ' '.join([head] + ['%016x' % n for n in words] + [self.before().hex(), self.after().hex()]) + '\n'
        assert len(text) == INTO_ROW
        return text


def several_of(row):
    """The call of a row, with the model's answer."""
    number = lambda at, digits: int(row[at:at + digits], 16)
    words = [number(at, 16) for at in range(69, 69 + 17 * (INTO_NUMBERS + INTO_LIST), 17)]
    targets = []
    for at in (0, 13, 26):
        bias = (words[at + 4] + 2 ** 63) % 2 ** 64 - 2 ** 63
        targets.append(((*words[at:at + 4], bias), dict(zip(SETTINGS, words[at + 5:at + 13]))))
    n, more = divmod(number(36, 2), 8)
    f = number(2, 1), number(4, 2), number(7, 2), number(10, 1), number(12, 17)
    return Several(row[44:68].rstrip('.'), f, words[INTO_NUMBERS:][:n], targets, number(30, 1), number(32, 3), more, number(39, 2), number(953, 2))


def in_threes(note, f, values, targets, **more):
    """A call for each three of the targets; the last ones are filled up with the first."""
    filled = targets + targets[:-len(targets) % 3]
    return [Several(note, f, values, filled[i:i + 3], **more) for i in range(0, len(filled), 3)]


def into_examples():
    """The rows of given ones and others by hand: list, targets, and of each target refusal, result, flags, passes, side, last edge."""
    at = lambda n: power(DOUBLE, n)
    f = DOUBLE.kind, DOUBLE.e, DOUBLE.w
    zero, down, up = {'rounding': TO_ZERO}, {'rounding': DOWN}, {'rounding': UP}
    sharp = [at(0), at(-11), at(-70)]
    rows = [
        ('1, 2^-11 and 2^-70', f, 0, sharp, [(HALFWIDTH, {}), (SINGLE, {}), (f, {})],
         [(0, 0x3c01, 0x50, 1, 2, -702), (0, 0x3f801000, 0x10, 1, 1, -702), (0, 0x3ff0020000000000, 0x10, 1, 1, -702)]),
        ('five digits, toward 0', f, 0, sharp, [(HALFWIDTH, {**up, 'precision': 5}), (HALFWIDTH, zero), (BFLOAT, {})],
         [(0, 0x3c40, 0x50, 1, 2, -702), (0, 0x3c00, 0x10, 1, 1, -702), (0, 0x3f80, 0x10, 1, 1, -702)]),
        ('binary16 in binary32', HALFWIDTH, 0, [0x3c00], [(HALFWIDTH, {}), (SINGLE, {}), (HALFWIDTH, {})],
         [(0, 0x3c00, 0, 1, 0, -702), (17,), (0, 0x3c00, 0, 1, 0, -702)]),
        ('the largest double', f, 0, [MOST], [(SINGLE, {}), (SINGLE, zero), ((1, 4, 8), {})],
         [(0, 0x7f800000, 0x54, 1, 3, 321), (0, 0x7f7fffff, 0x14, 1, 1, 321), (0, 0x7f, 0x14, 1, 3, 321)]),
        ('the largest double', f, 0, [MOST], [((2, 4, 8), {}), ((3, 2, 4), {}), (f, {})],
         [(0, 0x80, 0x14, 1, 3, 321), (0, 7, 0x14, 1, 1, 321), (0, MOST, 0, 1, 0, 321)]),
        ('a wider range', (0, 2, 10), 0, [1], [((0, 13, 20), {}), ((0, 13, 20), {'daz': 1}), ((0, 2, 10), {})],
         [(0, 0x3fe00, 0x80, 1, 0, -709), (0, 0x3fe00, 0x80, 1, 0, -709), (0, 1, 0xa0, 1, 0, -709)]),
        ('taken as zero', (0, 2, 10), 1, [1], [((0, 13, 20), {}), ((0, 13, 20), {'daz': 1}), ((0, 2, 10), down)],
         [(0, 0, 0x80, 0, 0, 0)] * 3),
        ('zero of its sign', (2, 4, 8), 1, [0x81], [((0, 4, 8), {}), ((2, 4, 8), {}), ((3, 4, 8), {})],
         [(0, 0x80, 0x80, 0, 0, 0), (0, 0, 0x80, 0, 0, 0), (0, 0x80, 0x80, 0, 0, 0)]),
        ('7 before 17', HALFWIDTH, 0, [0x10000, 0x7c00], [(SINGLE, {}), (HALFWIDTH, {}), (HALFWIDTH, {'rounding': 8})], [(7, 0), (7, 0), (4,)]),
        ('an infinity', HALFWIDTH, 0, [0x3c00, 0x7c00], [(SINGLE, {}), (HALFWIDTH, {}), (HALFWIDTH, {'precision': 12})], [(17,), (17,), (4,)]),
        ('beside a tie of binary32', f, 0, [at(0), at(-24), at(-1000)], [(SINGLE, {}), (SINGLE, {'rounding': TIES_TO_ZERO}), (f, {})],
         [(0, 0x3f800001, 0x50, 2, 2, -1403)] * 2 + [(0, 0x3ff0000010000000, 0x10, 2, 1, -1403)]),
        ('beside a tie of binary32', f, 0, [at(0), at(-24), MINUS + at(-1000)], [(SINGLE, {}), (SINGLE, {'rounding': TIES_AWAY}), (f, {})],
         [(0, 0x3f800000, 0x10, 2, 1, -1403)] * 2 + [(0, 0x3ff0000010000000, 0x50, 2, 2, -1403)]),
        ('C7', f, 0, [at(0), at(-53), at(-1000)], [(SINGLE, {}), (f, {}), (SINGLE, {**up})],
         [(0, 0x3f800000, 0x10, 2, 1, -1403), (0, 0x3ff0000000000001, 0x50, 2, 2, -1403), (0, 0x3f800001, 0x50, 2, 2, -1403)]),
        ('zeros of both signs', f, 0, [0, MINUS], [(HALFWIDTH, down), (HALFWIDTH, {}), ((2, 5, 16), down)],
         [(0, 0x8000, 0, 0, 0, 0), (0, 0, 0, 0, 0, 0), (0, 0, 0, 0, 0, 0)]),
        ('1 and -1', f, 0, [at(0), MINUS + at(0)], [(HALFWIDTH, down), (SINGLE, {}), ((2, 5, 16), down)],
         [(0, 0x8000, 0, 1, 0, -702), (0, 0, 0, 1, 0, -702), (0, 0, 0, 1, 0, -702)]),
        ('no values', f, 0, [], [(HALFWIDTH, down), (SINGLE, {}), (f, up)], [(0, 0, 0, 0, 0, 0)] * 3),
    ]
    made = []
    for note, f, daz, values, targets, answers in rows:
        call = Several(note, f, values, targets, daz)
        for aim, answer in zip(call.aims, answers, strict=True):
            assert aim.refusal == answer[0]
            if aim.refusal:
                assert aim.place == (answer[1] if len(answer) > 1 else 0)
            else:
                r = aim.record
                assert (r.result, r.flags, r.passes, r.leans, r.edge) == answer[1:], (note, '%x' % r.result, r.flags, r.passes, r.leans, r.edge)
        made.append(call)
    return made


# formats of lists, and of targets; each has targets of at most its digits
INTO_LISTS = ((11, 64), (8, 32), (15, 64), (8, 64), (11, 33), (20, 53), (5, 16))
INTO_TARGETS = ((5, 16), (8, 16), (4, 8), (5, 8), (3, 16), (8, 19), (11, 13), (15, 24), (2, 4))


def aimed(i, f, count=3):
    """Targets of every kind and of at most the list's digits, another choice for every i."""
    fits = [pair for pair in INTO_TARGETS + INTO_LISTS if pair[1] - pair[0] <= f.p]
    return [(((i + j) % 4, *fits[(i // 2 + 5 * j) % len(fits)])) for j in range(count)]


def into_orders():
    """The same three targets in their six orders, and the same list backwards: one slot for each, wherever it stands."""
    made = []
    for i, (e, w) in enumerate(INTO_LISTS[:4]):
        f = Format(i % 4, e, w)
        targets = [(t, {'rounding': (3 * i + j) % 8}) for j, t in enumerate(aimed(i, f))]
        # one of the three is refused in two of the lists
        if i % 2:
            targets[1] = ((0, 2, 64), {}) if i == 1 else (targets[1][0], {'precision': 65})
        values = [power(f, 2, i % 2, 1), power(f, -f.p + 2), power(f, -2 * f.p), power(f, 1, 1 - i % 2, (1 << f.fraction) - 1)]
        slots = set()
        for order in permutations(range(3)):
            call = Several('targets in six orders', (f.kind, e, w), values if order < (1, 2, 0) else values[::-1], [targets[j] for j in order])
            slots |= {(j, aim.slot()) for j, aim in zip(order, call.aims)}
            made.append(call)
        assert len(slots) == 3
    return made


def into_ties():
    """Each rounding, sign and side of a tie of a target: a number of the target's digits and less than half a unit of its last one, half of it beside an
    even and beside an odd number, and more than half. What decides lies below the list's digits, in every other row below the first window."""
    made = []
    for mode, negative, side in product(range(8), range(2), ('below', 'on', 'on odd', 'above')):
        i = len(made)
        pair = INTO_LISTS[i % 3] if i % 2 == 0 else (11, 64)
        f = Format(i // 3 % 4, *pair)
        e, w = INTO_TARGETS[(i // 2) % 5]
        t = Format((i + mode) % 4, e, w)
        top = i % 3 if t.e > 2 else 0
        odd = side == 'on odd' or side != 'on' and i // 4 % 2
        m = (1 << t.fraction) + (i * 2654435761 % (1 << t.fraction) & ~1) + odd
        m -= 2 * (t.kind == NOINF and m == (1 << t.p) - 1)
        trace = f.number(negative, 1, max(top - (900 if i % 2 else f.p + 9), f.low))
        values = [f.number(negative, m, top - t.fraction), f.number(negative, 1, top - t.p)]
        values += {'below': [trace ^ f.sign], 'above': [trace]}.get(side, [trace, trace ^ f.sign])
        c = {'rounding': mode, 'tininess': i % 2}
        other = (t.kind + 1) % 4, e, w
        made.append(Several('ties of a target', (f.kind, *pair), values, [((t.kind, e, w), c), (other, {**c, 'rounding': (mode + 3) % 8}),
                                                                       ((f.kind, *pair), c)]))
        r = made[-1].aims[0].record
        assert (r.side, r.negative) == (side, negative)
    return made


def into_boundaries():
    """Chains with a boundary of the list's p + 1 digits, below it, on it and above it, into the list's own format and two of fewer digits; and chains of
    more passes, whose pairs cancel."""
    made = []
    for mode, negative, side in product(range(8), range(2), ('below', 'on', 'above')):
        i = len(made)
        pair = FAR[i % 11]
        f = Format(i // 5 % 4, *pair)
        t = i % 13
        edge = t - 702
        # in every other row the middle of two of the targets' numbers, else a number of the target
        first, second = aimed(i, f, 2)
        p = Format(*first).p
        values = [power(f, t, negative)] + [power(f, t - p, negative)] * (i // 2 % 2)
        near, far = power(f, edge + 3 + 4 * (i % 13), negative), power(f, edge - 67 - i, negative)
        if side == 'on':
            values += [far, far ^ f.sign] + [near, near ^ f.sign] * (i // 2 % 2)
        else:
            below = f.sign * (side == 'below')
            values += [near ^ below, far ^ f.sign * (i // 5 % 2)] if i // 3 % 2 else [far ^ below]
        c = {'rounding': mode, 'tininess': i % 2}
        made.append(Several('beside a boundary', (f.kind, *pair), values, [(first, c), ((f.kind, *pair), c), (second, {**c, 'rounding': (mode + 1) % 8})]))
        r = made[-1].aims[1].record
        assert (r.end, r.passes > 1, r.negative) == (side, True, negative)
    for i, (e, w) in enumerate(((11, 64), (12, 64), (12, 14), (13, 15), (14, 64), (15, 41), (16, 18), (17, 64), (18, 20), (20, 53))):
        f = Format(i % 4, e, w)
        big, least = power(f, f.emax), 1 + f.sign * (i // 2 % 2)
        targets = [(t, {'rounding': (i + j) % 8}) for j, t in enumerate(aimed(i, f, 2))] + [((f.kind, e, w), {'rounding': i % 8})]
        made.append(Several('long chains', (f.kind, e, w), [least, big, power(f, 0), big ^ f.sign] if i % 3 else [big, least], targets))
    return made


def into_ways():
    """Sums that a rounding to the list's format, or to binary64, makes a tie of a target, or takes from one: the same rounding twice has another result."""
    made = []
    for i, (kind, pair, mode, negative) in enumerate(product(range(4), ((11, 64), (8, 64)), (EVEN, TIES_AWAY, TIES_TO_ZERO), range(2))):
        if i % 4 == 2:
            continue
        f = Format(kind, *pair)
        # half a unit of the target, and a trace below half a unit of the list's format: more where the tie goes down, less where it goes up
        targets = [((i + j) % 4, *INTO_TARGETS[(i + 2 * j) % 4]) for j in range(3)]
        t = Format(*targets[0])
        odd = i // 2 % 2
        more = mode == TIES_TO_ZERO or mode == EVEN and not odd
        m = (1 << t.fraction) + odd
        values = [f.number(negative, m, -t.fraction), f.number(negative, 1, -t.p), f.number(negative if more else 1 - negative, 1, max(-f.p - 9 - i, f.low))]
        made.append(Several('by way of the list', (kind, *pair), values, [(targets[0], {'rounding': mode}), (targets[1], {'rounding': (mode + 1) % 3}),
                                                                         (targets[2], {'rounding': mode})]))
        assert twice_rounded(made[-1].aims[0], made[-1]) != made[-1].aims[0].record.result
    return made


def exact_total(aim, call):
    """The sum of an accepted list, a whole number times a power of two, and that power; None where it is 0."""
    terms, _ = sum_terms(VALUE, operands(aim.f, {'daz': call.daz}, call.values)[0])
    low = min((x for _, _, x in terms), default=0)
    total = sum((-m if negative else m) << (x - low) for negative, m, x in terms)
    return (total, low) if total else None


def twice_rounded(aim, call):
    """The result in the target of a sum that is first rounded to the list's format, in the same mode; None where that is no number."""
    found = exact_total(aim, call)
    if found is None:
        return aim.record.result
    total, low = found
    first, _, _ = round_once(aim.f, {**PLAIN, 'rounding': aim.c['rounding']}, int(total < 0), abs(total), low)
    v = aim.f.decode(first)
    return round_once(aim.t, aim.c, v[1], v[2], v[3])[0] if v[0] == 'number' else None


def into_overflows():
    """In every kind, rounding, sign and saturation of a target: far beyond its largest number, and half a unit of its last place beyond it, less or more."""
    made = []
    for negative, far in product(range(2), range(2)):
        every = [((kind, *((5, 16), (4, 8), (5, 8))[(mode + kind) % 3]), {'rounding': mode, 'saturate': saturate, 'precision': 3 * (mode % 4 == 3)})
                 for mode, saturate, kind in product(range(8), range(2), range(4))]
        if far:
            values = [power(DOUBLE, 900, negative, 5), power(DOUBLE, 3, 1 - negative)]
            made += in_threes('overflow', (0, 11, 64), values, every[negative::2])
        else:
            for j, (format_, c) in enumerate(every[negative::7]):
                t = Format(*format_)
                big, unit = t.largest(negative, t.p), t.emax - t.p + 1
                _, sign, m, x = t.decode(big)
                f = Format(j % 4, 11, 64)
                half, bit = f.number(negative, 1, unit - 1), f.number(negative, 1, -900)
                values = [f.number(sign, m, x), half] + [[], [bit], [bit ^ f.sign]][j % 3]
                others = [(format_, {**c, 'rounding': (c['rounding'] + k) % 8, 'precision': 0, 'saturate': (j + k) % 2}) for k in range(3)]
                made.append(Several('largest and half', (f.kind, 11, 64), values, others))
    return made


def into_tiny():
    """Each rounding, tininess and flush of a target: just below its least normal number, an exact subnormal number, beside half of its least one, and far
    below that."""
    made = []
    for i in range(6):
        negative, i = i % 2, i % 4
        t = (2 * i + negative) % 4, *((5, 16), (4, 8), (8, 16), (5, 8))[i]
        g = Format(*t)
        f = Format((i + negative) % 4, 11, 64)
        number = lambda m, x, turn=0: f.number(negative ^ turn, m, x)
        values = [[number(1, g.emin), number(1, g.emin - g.p - 1, 1)], [number(3, g.low)], [number(1, g.low - 1), number(1, g.low - 60, i % 2)],
                  [number(1, g.low - 300), number(5, g.low - 800)]][i]
        every = [(t, {'rounding': mode, 'tininess': tininess, 'flush': flush, 'precision': (0, 2)[mode == 6 and flush == 0]})
                 for mode, tininess, flush in product(range(8), range(2), range(2)) if (mode + tininess + flush) % 2 == (i > 1)]
        made += in_threes('tiny', (f.kind, 11, 64), values, every)
    return made


def into_precisions():
    """Every precision of binary16 and of a target of 16 digits: a tie at q digits, or a trace beside it."""
    made = []
    for p, t in ((11, HALFWIDTH), (16, (1, 8, 24)), (8, (2, 8, 16))):
        for q in range(1, p + 1, 3):
            # the three digits from q on, each of which makes its tie of the list
            values = [power(DOUBLE, 0, q % 2)] + [power(DOUBLE, -q, q % 2)] + [[], [power(DOUBLE, -800)], [power(DOUBLE, -90, 1)]][q % 3]
            made.append(Several('precision', (0, 11, 64), values, [(t, {'rounding': (q + p) % 8, 'precision': min(q + k, p)}) for k in range(3)]))
    return made


def into_zeros():
    """Zeros of either sign and of both, terms that cancel, subnormal values taken as zeros and as they are, under targets of every kind and rounding."""
    made = []
    for i, kind in enumerate((0, 1, 2, 3)):
        f = Format(kind, *INTO_LISTS[i])
        minus = 0 if kind == FNUZ else f.sign
        one, least = power(f, 0), 1
        lists = [[0, minus], [minus, minus], [one, minus, one ^ f.sign], [least ^ f.sign], [least ^ f.sign, 0, f.quiet],
                 [power(f, 5), one, power(f, 5) ^ f.sign]]
        for j, values in enumerate(lists):
            k = i + j
            targets = [(((k + n) % 4, *t[1:]), {'rounding': (DOWN, EVEN, k % 8)[n], 'daz': (k + n) % 2}) for n, t in enumerate(aimed(k, f))]
            made.append(Several('zeros and cancelling', (kind, f.e, f.w), values, targets, daz=j % 2))
    return made


def into_ranges(draw):
    """A list of each kind into targets of each, whose exponents reach farther or less far, above, below or both: E from 2 to 28, and named biases."""
    made = []
    far = (-2 ** 28, 2 ** 28, -2 ** 28 + 1, 2 ** 28 - 1, 2000, -2000, 40, -40, 0)
    for i in range(48):
        e = (11, 28, 5, 2, 20, 8, 15)[i % 7]
        w = draw.choice([n for n in widths(e) if n - e >= 3])
        f = (i % 4, e, w) if i % 3 else (i % 4, *((11, 64), (5, 16), (28, 64), (4, 8))[i // 3 % 4], far[i // 3 % 9])
        g = Format(*f)
        near = draw.choice([g.bias, draw.below(g.ones), 1])
        spread = 60 if len(f) == 4 or e > 15 else 700
        field = lambda: min(max(near + draw.between(-spread, spread), 0), g.ones - 1)
        values = [g.normal(draw.bits(1), field(), draw.choice([0, 1, draw.bits(g.fraction)])) for _ in range(draw.between(1, 4))]
        values = [v for v in values if g.decode(v)[0] in ('number', 'zero')]
        targets = []
        for j in range(3):
            wide = 2 + (2 * i + j) % 27
            digits = draw.between(2, g.p)
            t = (i // 4 + j) % 4, wide, min(wide + digits, 64)
            if (i + j) % 3 == 0:
                t = (t[0], *draw.choice([pair for pair in ((5, 16), (4, 8), (11, 64), (28, 30), (2, 4), (8, 32)) if pair[1] - pair[0] <= g.p] or [(2, 4)]),
                     g.bias - 5 if len(f) == 4 and j else far[(i + j) // 3 % 9])
            if t[2] - t[1] > g.p:
                t = (t[0], t[1], t[1] + 2)
            targets.append((t, settings(draw, Format(*t))))
        made.append(Several('other ranges', f, values, targets, daz=draw.below(2)))
    return made


BAD_FORMATS = ((4, 15, 80), (5, 5, 16), (15, 11, 64), (0, 1, 16), (0, 29, 64), (0, 5, 6), (0, 11, 65), (0, 5, 16, 2 ** 28 + 1), (2, 4, 8, -2 ** 28 - 1),
               (0, 5, 16, 2 ** 63 - 1), (0, 5, 16, 0, 15), (0, 5, 16, 2, 0), (0, 5, 16, 15, 15), (0, 5, 16, 0, -1))
# what the numbers of a target may be beside these
FARTHER = ((2 ** 32, 5, 16), (0, 2 ** 32 + 5, 16), (0, 5, 2 ** 32 + 16), (0, 5, 16, 2 ** 32 + 1, 15), (0, 5, 16, 1, -2 ** 63), (2 ** 64 - 1, 5, 16))
NOT_FINITE = (0x7c00, 0xfc00, 0x7e00, 0x7c01)


def into_refusals():
    """Each refusal for one, two and three of the targets, each two of them at once, and the lower number for each; 1 and 2 before all else."""
    made = []
    good = [(HALFWIDTH, {}), ((1, 4, 8), {'rounding': UP}), ((2, 5, 8), {'rounding': DOWN})]
    values = [0x3c00, 0x1000, 0x8001]
    put = lambda places, bad: [bad if j in places else target for j, target in enumerate(good)]
    for i, bad in enumerate(BAD_FORMATS):
        # the list's: for all three; a target's: for itself
        made.append(Several("3, the list's format", bad, [0x3c00, 0x10000] if i % 2 else [1], put([i % 3], (HALFWIDTH, {'rounding': 8})),
                            daz=2 * (i % 3 == 0), more=2 * (bad[0] == 4)))
        made.append(Several("3, a target's format", HALFWIDTH, values, put([i % 3], (bad, {'precision': 65 * (i % 2)}))))
    for i, bad in enumerate(FARTHER):
        made.append(Several("3, a target's format", HALFWIDTH, values, put([i % 3, (i + 1) % 3], (bad, {}))))
    made.append(Several('3, all three', HALFWIDTH, [0x10000], [(bad, {}) for bad in BAD_FORMATS[:3]]))
    for i, (name, most) in enumerate(zip(SETTINGS, RANGES + (12,))):
        made.append(Several('4, a setting', HALFWIDTH, values, put([i % 3], (HALFWIDTH, {name: most}))))
        far = HALFWIDTH, {name: (2 ** 32, 2 ** 64 - 1)[i % 2]}
        made.append(Several('4, a setting', HALFWIDTH, [0x10000, 0x7c00][i % 2:], put([i % 3, (i + 1) % 3], far)))
    for q, t in ((5, (1, 4, 8)), (9, BFLOAT), (25, SINGLE), (54, (0, 11, 64)), (11, HALFWIDTH), (4, (1, 4, 8))):
        made.append(Several('4, precision', (0, 11, 64), [power(DOUBLE, 0), power(DOUBLE, -8)], put([q % 3], (t, {'precision': q}))))
    for daz, some in ((2, values), (2, [0x10000]), (3, [0x7c00]), (15, values)):
        made.append(Several("4, the list's", HALFWIDTH, some, put([daz % 3], ((0, 5, 6), {})), daz=daz))
    for i, place in enumerate((0, 1, 4, 11)):
        some = [0x3c00] * 12
        some[place] = 0x10000 << 3 * i
        made.append(Several('7', HALFWIDTH, some, good))
        made.append(Several('7', HALFWIDTH, some[:place + 1] + [2 ** 63, 0x7c00, 2 ** 16][:11 - place], put([i % 3], (SINGLE, {}))))
        made.append(Several('7 beside 3 and 4', HALFWIDTH, some, put([i % 3], (HALFWIDTH, {'daz': 2}))[:2] + [((0, 1, 16), {})]))
    for i, b in enumerate(NOT_FINITE):
        made.append(Several('17, not finite', HALFWIDTH, [0x3c00] * i + [b], good))
        made.append(Several('17, not finite', HALFWIDTH, [b, 0x3c00, 0x8001], put([i % 3], (HALFWIDTH, {'flush': 2}))))
    for f, b in (((1, 4, 8), 0x7f), ((1, 4, 8), 0xff), ((2, 4, 8), 0x80), ((0, 11, 64), INFINITE), ((0, 11, 64), NOT_A_NUMBER)):
        made.append(Several('17, not finite', f, [1, b], [(f, {}), ((3, 2, 4), {}), ((0, 11, 64), {})]))
    for i, numbers in enumerate(combinations((3, 4, 7, 17), 2)):
        spoiled_list = [0x3c00] + [0x10000] * (7 in numbers) + [0x7c00] * (17 in numbers)
        bad = ((0, 1, 16) if 3 in numbers else HALFWIDTH), {'saturate': 2 * (4 in numbers)}
        made.append(Several('two at once', HALFWIDTH, spoiled_list, put([i % 3], bad)))
    # as many digits, one more, and the precision does not count
    for i, (f, t) in enumerate(((HALFWIDTH, (0, 4, 15)), (HALFWIDTH, (0, 4, 16)), (HALFWIDTH, (3, 28, 39)), (HALFWIDTH, (3, 28, 40)), (SINGLE, (1, 2, 26)),
                               (SINGLE, (1, 2, 27)), ((0, 11, 64), (0, 8, 61)), ((0, 11, 64), (0, 8, 62)), ((3, 2, 4), (0, 28, 30)), ((3, 2, 4), (0, 28, 31)))):
        g = Format(*f)
        made.append(Several('17, digits', f, [power(g, 0), 1], [(t, {}), (f, {}), (t, {'precision': 1 + i % 2})]))
    for size in (0, 104, 208, 304, 311, 313, 320):
        made.append(Several('1, the targets', HALFWIDTH, values, good, size=size, room=(96, 95)[size % 3 == 0], first=size % 256))
    for more in (1, 3, 4, 7):
        made.append(Several('1, the values', (HALFWIDTH, (0, 1, 16))[more % 2], values, good, more=more, room=(96, 0)[more % 3 == 0]))
    # a list of kind 4 is counted by tens, and has 3 for each target where it is whole
    for i, (n, more) in enumerate(KIND_4_LISTS):
        f = KIND_4_FORMATS[i % len(KIND_4_FORMATS)]
        made.append(Several('kind 4, by tens', f, [0x3c00] * n, good, daz=i % 3, more=more, room=(96, 100, 104, 95)[i % 4], first=11 * i % 256))
    for room in (0, 24, 32, 64, 95, 97, 103, 104):
        made.append(Several('room', HALFWIDTH, values, put([room % 3], (SINGLE, {})), room=room, first=3 * room))
    made += [Several('2 before 3', (0, 1, 16), values, good, room=95), Several('2 before 4', HALFWIDTH, values, good, daz=2, room=95),
             Several('2 before 7 and 17', HALFWIDTH, [0x10000], put([0, 1, 2], (SINGLE, {})), room=95)]
    return made


def into_drawn(draw):
    """Lists drawn, of every kind, into the format itself and two others; and lists of 2, 3 and 4 passes."""
    made = []
    for i in range(30):
        case = drawn_sum(draw, i) if i % 5 else drawn_passes(draw, 2 + i // 5 % 3)
        f = case.format()
        targets = [((f.kind, f.e, f.w), case.c)] + [(t, settings(draw, Format(*t))) for t in aimed(draw.below(60), f, 2)]
        made.append(Several('drawn', (f.kind, f.e, f.w), case.left, draw.shuffled(targets), case.c['daz'], room=draw.between(96, 104), first=draw.bits(8)))
    return made


def drawn_sum(draw, i):
    """A plain sum of finite values."""
    while True:
        f = Format(i % 4, *INTO_LISTS[i % 7])
        case = drawn(draw, f, (near_tie, cancelling, staircase, mixed))
        if case.right is None and case.summand == VALUE and is_finite_in(f, case.left):
            return case


def drawn_passes(draw, passes):
    """A plain sum of so many passes: steps that the window does not reach, and pairs that cancel."""
    while True:
        f = Format(draw.below(4), *draw.choice(((11, 64), (12, 64), (15, 64), (12, 14))))
        case = drawn(draw, f, (staircase, cancelling))
        if case.right is None and case.passes == passes and is_finite_in(f, case.left):
            return case


def several():
    draw = Draw(14)
    return (into_examples() + into_orders() + into_ties() + into_boundaries() + into_ways() + into_overflows() + into_tiny() + into_precisions()
            + into_zeros() + into_ranges(draw) + into_refusals() + into_drawn(draw))


def as_products(t, q, total, low):
    """A sum as a dot product of normal numbers of the format t, whose exact value is rounded alike to q digits: pieces of its digits, each times a power of
    two. Digits that no product reaches become one, right below those that are; None where that one could decide, or where the sum is beyond all products."""
    m, most = abs(total), t.ones - 1 - t.bias
    if low < 2 * t.emin:
        kept = m >> 2 * t.emin - low
        m, low = kept | (kept << 2 * t.emin - low != m), 2 * t.emin
        top = low + m.bit_length() - 1
        if max(t.emin, top) - q <= low or top - q <= low and m > 1:
            return None
    if low + m.bit_length() - 1 > 2 * most:
        return None
    left, right = [], []
    while m:
        size = min(t.p, m.bit_length())
        rest = m.bit_length() - size
        piece, at = m >> rest, low + m.bit_length() - 1
        a = min(max(at // 2, t.emin), most)
        left.append(t.normal(int(total < 0), a + t.bias, (piece << t.p - size) - (1 << t.fraction)))
        right.append(power(t, at - a))
        m -= piece << rest
    return left, right


def several_asked(binary):
    """Holds the accepted targets to the oracle: result and flags, but 128, to a dot product in the target's format that has the same exact sum, and the
    passes to the plain sum of the list. How many targets and lists there are of which it knows the format and can be asked."""
    known = set(known_formats(binary))
    named = lambda numbers: numbers[:3] + numbers[4:] * numbers[3]
    dots, sums = [], []
    for call in several():
        accepted = [aim for aim in call.aims if aim.record and not call.returned]
        if accepted and named(call.numbers) in known:
            sums.append((call, accepted[0].record, Case(accepted[0].f, {'daz': call.daz}, call.values)))
        for aim in accepted:
            found = exact_total(aim, call)
            pairs = found and as_products(aim.t, aim.c['precision'] or aim.t.p, *found)
            if pairs and named(aim.numbers) in known:
                dots.append((call, aim.record, Case(aim.t, {**aim.c, 'daz': 0}, *pairs)))
    for asked_of, mine in ((dots, lambda r: ('%x' % r.result, r.flags % 128)), (sums, lambda r: (r.passes,))):
        for (call, r, case), answer in zip(asked_of, asked(binary, [case for _, _, case in asked_of])):
            result, flags, passes = answer.split()
            if mine(r) != ((result, int(flags) % 128) if asked_of is dots else (int(passes),)):
                sys.exit('%s: %s\n  oracle %s, model %x %d %d' % (call.note, case.line(), answer, r.result, r.flags, r.passes))
    return len(dots), len(sums)


def cover_several(every):
    entered = [call for call in every if not call.returned]
    aims = [(call, aim) for call in entered for aim in call.aims]
    accepted = [(call, aim) for call, aim in aims if not aim.refusal]
    print('%5d  calls for several formats, %d of them entered; %d targets, %d of them accepted' % (len(every), len(entered), len(aims), len(accepted)))
    where = lambda holds: [(call, aim) for call, aim in accepted if holds(call, aim, aim.record)]
    of = lambda key: lambda pair: key(pair[0], pair[1], pair[1].record)
    fewest('kind of the list, kind of the target', accepted, of(lambda call, aim, r: (aim.f.kind, aim.t.kind)), range(4), range(4))
    fewest('kind of the target, rounding', accepted, of(lambda call, aim, r: (aim.t.kind, aim.c['rounding'])), range(4), range(8))
    fewest('E of the target', accepted, of(lambda call, aim, r: (aim.t.e,)), range(2, 29))
    reach = lambda aim: (aim.t.emax > aim.f.emax, aim.t.low < aim.f.low)
    fewest('target reaches farther than the list or not, above, below', accepted, of(lambda call, aim, r: reach(aim)), (False, True), (False, True))
    fewest('digits: as many, fewer', accepted, of(lambda call, aim, r: (aim.t.p < aim.f.p,)), (False, True))
    fewest('rounding, sign, side of a tie (below, on even, on odd, above)', accepted,
           of(lambda call, aim, r: (aim.c['rounding'], r.negative, r.side)), range(8), range(2), ('below', 'on', 'on odd', 'above'))
    fewest('rounding, sign, side of a boundary (below, on, above)', accepted,
           of(lambda call, aim, r: (aim.c['rounding'], r.negative, r.end)), range(8), range(2), ('below', 'on', 'above'))
    fewest('overflow by kind, rounding, saturation', where(lambda call, aim, r: r.flags & OVERFLOW),
           of(lambda call, aim, r: (aim.t.kind, aim.c['rounding'], aim.c['saturate'])), range(4), range(8), range(2))
    fewest('tiny by rounding, tininess, flush', where(lambda call, aim, r: r.flags & TINY),
           of(lambda call, aim, r: (aim.c['rounding'], aim.c['tininess'], aim.c['flush'])), range(8), range(2), range(2))
    fewest('precision below p, by rounding', where(lambda call, aim, r: 0 < aim.c['precision'] < aim.t.p),
           of(lambda call, aim, r: (aim.c['rounding'],)), range(8))
    fewest('side', accepted, of(lambda call, aim, r: (r.leans,)), range(4))
    fewest('passes, 0 to 4', accepted, of(lambda call, aim, r: (r.passes,)), range(5))
    print('%5d  passes of the longest chain' % max(aim.record.passes for _, aim in accepted))
    subnormal = where(lambda call, aim, r: r.flags & SUBNORMAL)
    fewest("a subnormal value by the list's denormals-are-zero and the target's", subnormal, of(lambda call, aim, r: (call.daz, aim.c['daz'])),
           range(2), range(2))
    fewest('no term, or a sum of 0, by kind of the target, toward negative or not', where(lambda call, aim, r: r.end in ('', 'zero')),
           of(lambda call, aim, r: (aim.t.kind, aim.c['rounding'] == DOWN)), range(4), (False, True))
    fewest('another result by way of the list, by kind of the list', where(lambda call, aim, r: twice_rounded(aim, call) != r.result),
           of(lambda call, aim, r: (aim.f.kind,)), range(4))
    fewest('own format, by kind', where(lambda call, aim, r: aim.numbers == call.numbers), of(lambda call, aim, r: (aim.t.kind,)), range(4))
    named = lambda numbers: numbers[3] == 1
    fewest('a bias named by the list, by the target, by both', accepted, of(lambda call, aim, r: (named(call.numbers) + 2 * named(aim.numbers),)), range(1, 4))
    both = [(numbers[4], k) for call, aim in accepted for k, numbers in enumerate((call.numbers, aim.numbers))]
    fewest('2^28 or one less, and their negatives, of the list and of the target', both, lambda pair: pair,
           (2 ** 28, 2 ** 28 - 1, -2 ** 28, 1 - 2 ** 28), range(2))
    refused = [(call, aim) for call, aim in aims if aim.refusal]
    fewest('one refusal alone', [aim for _, aim in refused if len(aim.holds) == 1], lambda aim: tuple(aim.holds), (3, 4, 7, 17))
    fewest('two refusals at once, by pair', [aim for _, aim in refused if len(aim.holds) == 2], lambda aim: (tuple(sorted(aim.holds)),),
           combinations((3, 4, 7, 17), 2))
    fewest('one, two, three targets refused', entered, lambda call: (sum(aim.refusal > 0 for aim in call.aims),), range(1, 4))
    fewest('1, 2 and both', every, lambda call: (tuple(sorted(call.holds)),), ((1,), (2,), (1, 2)))


# ---- totals within an allowance of passes

WITHIN_ROW, WITHIN_LIST, WITHIN_BUFFER, WITHIN_NOTE, WITHIN_ANSWER = 1112, 12, 152, 20, 144
MOST_PASSES = 2 ** 64 - 1


class Within:
    """A call of an entry with an allowance, and what it answers. A right list makes it a dot."""

    def __init__(self, note, f, c, left, right=None, summand=VALUE, allowance=1, more=(0, 0), room=WITHIN_BUFFER, first=0xa0):
        self.note, self.numbers, self.c = note, five(f), {**PLAIN, **c}
        self.left, self.right, self.summand, self.allowance = left, right, summand, allowance
        self.more, self.room, self.first = more, room, first
        self.holds = within_conditions(*self.numbers, self.c, summand, left, right, more, room, allowance)
        self.refusal = next((n for n in WITHIN_ORDER if n in self.holds), 0)
        place = (stray(self.numbers[2], left) + stray(self.numbers[2], right or []))[0] if self.refusal == 7 else 0
        self.returned = self.refusal + 256 * place
        self.record, self.shown = None, None
        if not self.refusal:
            self.record, terms, steps = self.total()
            assert len(steps) == self.record.passes
            if self.record.passes > allowance:
                self.shown = steps[allowance - 1][:3]
                apart, reach = off(terms, *self.shown)
                assert apart < reach

    def total(self):
        """The record of the total itself, its terms and its passes."""
        f, _ = format_of(self.numbers)
        return walked(f, tuple(self.c[name] for name in SETTINGS), self.summand, tuple(self.left), None if self.right is None else tuple(self.right))

    def before(self):
        return bytes((self.first + 7 * i) % 256 for i in range(WITHIN_BUFFER))

    def answer(self):
        """The 144 bytes: of a full answer the record, of an unfinished one the pass that was the last."""
        r, word = self.record, lambda n: (n % 2 ** 64).to_bytes(8, 'little')
        if self.shown is None:
            return word(r.result) + bytes([r.flags, 0, r.leans]) + bytes(5) + word(r.passes) + word(r.edge) + bytes(112)
        edge, boundary, s = self.shown
        whole, unit = boundary or (0, 0)
        return (bytes(9) + bytes([1, 0, whole < 0]) + bytes(4) + word(self.allowance) + word(edge) + word(abs(whole)) + word(unit)
                + (s % 2 ** 768).to_bytes(96, 'little'))

    def after(self):
        return self.before() if self.returned else self.answer() + self.before()[WITHIN_ANSWER:]

    def row(self):
        dot, (kind, e, w, named, bias) = self.right is not None, self.numbers
        lent = [8 * len(values) + n for values, n in zip((self.left, self.right or []), self.more)]
        assert len(self.note) <= WITHIN_NOTE and max(lent) <= 8 * WITHIN_LIST + 7 and max(len(self.left), len(self.right or [])) <= WITHIN_LIST
        head = '%s %x %02x %02x %s %02x %x %02x %02x %02x %x %s %s %03x %016x' % (
            'd' if dot else 's', kind, e, w, ''.join('%x' % self.c[name] for name in SETTINGS[:7]), self.c['precision'], self.summand, *lent, self.room,
            named, signed(bias, 16), self.note.ljust(WITHIN_NOTE, '.'), self.returned, self.allowance)
        # what stands behind a list is no zero, and has bits that are stray in most formats
        filled = lambda values: values + [0x5a5a5a5a5a5a5a5a] * (WITHIN_LIST - len(values))
        values = filled(self.left) + filled(self.right or [])
        text = ' '.join([head, self.before().hex(), self.after().hex()] + ['%016x' % v for v in values]) + '\n'
        assert len(text) == WITHIN_ROW
        return text

    def case(self):
        """The plain total."""
        return Case(format_of(self.numbers)[0], self.c, self.left, self.right, self.summand)


def within_of(row):
    """The call of a row, with the model's answer."""
    number = lambda at, digits: int(row[at:at + digits], 16)
    c = {name: number(10 + i, 1) for i, name in enumerate(SETTINGS[:7])}
    c['precision'] = number(18, 2)
    values = [number(at, 16) for at in range(704, WITHIN_ROW, 17)]
    (n, more), (m, more_right) = divmod(number(23, 2), 8), divmod(number(26, 2), 8)
    right = values[WITHIN_LIST:][:m] if row[0] == 'd' else None
    f = number(2, 1), number(4, 2), number(7, 2), number(32, 1), number(34, 17)
    return Within(row[52:72].rstrip('.'), f, c, values[:n], right, number(21, 1), number(77, 16), (more, more_right), number(29, 2), number(94, 2))


def numbers_of(f):
    """A format as Within takes it."""
    return (f.kind, f.e, f.w) if f.named is None else (f.kind, f.e, f.w, f.named)


def within_each(note, case, allowances=None):
    """A call for each allowance: from 1 to one more than the passes, where none are given."""
    made = []
    for i, k in enumerate(allowances or range(1, case.passes + 2)):
        room, first = (WITHIN_BUFFER, 144, 145, 151)[(i + k) % 4], (37 * k + 11 * i) % 256
        made.append(Within(note, numbers_of(case.format()), case.c, case.left, case.right, case.summand, k, room=room, first=first))
    return made


def at_ends(passes, *more):
    """Allowances at both ends of a long chain, and beyond it."""
    return sorted({k for k in (1, 2, passes // 2, passes - 1, passes, passes + 1, *more) if k > 0})


def within_examples():
    """The rows of given ones and others by hand. Of a full answer: result, flags, side, passes, last edge; of an unfinished one: last edge, the
    boundary's whole number with its sign, the position of its unit, and S."""
    at = lambda n, negative=0: power(DOUBLE, n, negative)
    f, g = (0, 11, 64), (0, 13, 18)
    wide = lambda n, negative=0: power(Format(*g), n, negative)
    far = [wide(4000), wide(4000, 1), wide(-4000)]
    near = [at(1000), at(-390), at(-900)]
    below = [at(1000), at(298, 1), at(297), at(297), at(-900)]
    lowest = (0, 28, 30), [0x1ffffffd, 1]
    rows = [
        ('-2^1023, 2^-1074', f, VALUE, [at(1023, 1), 1], None, {1: (321, 0, 0, -2 ** 702)}),
        ('a NaN', f, VALUE, [at(0), 0x7ff8000000000001], None, {1: (0x7ff8000000000001, 0, 3, 0, 0)}),
        ('C5', f, VALUE, [at(1000), at(0), at(1000, 1)], None, {1: (298, 0, 0, 0), 2: (at(0), 0, 0, 2, -468), 3: (at(0), 0, 0, 2, -468)}),
        ('C7', f, VALUE, [at(0), at(-53), at(-1000)], None,
         {1: (-702, 0, 0, 2 ** 702 + 2 ** 649), 2: (at(0) + 1, 0x50, 2, 2, -1403), MOST_PASSES: (at(0) + 1, 0x50, 2, 2, -1403)}),
        ('C1', f, VALUE, [], None, {1: (0, 0, 0, 0, 0), MOST_PASSES: (0, 0, 0, 0, 0)}),
        ('C2', f, VALUE, [1 << 63], None, {1: (1 << 63, 0, 0, 0, 0)}),
        ('C4', f, VALUE, [at(0), at(0, 1)], None, {1: (0, 0, 0, 1, -702), 2: (0, 0, 0, 1, -702)}),
        ('C8', f, VALUE, [0x7fefffffffffffff] * 2, None, {1: (0x7ff0000000000000, 0x54, 3, 1, 321)}),
        ('C10', f, VALUE, [1], None, {1: (1, 0xa0, 0, 1, -1776), 2: (1, 0xa0, 0, 1, -1776)}),
        ('C11', f, SQUARE, [at(-600)], None, {1: (0, 0x38, 1, 1, -1901)}),
        ('C12', f, MAGNITUDE, [0xfff0000000000000, 0x7ff8000000000000], None, {1: (0x7ff0000000000000, 0, 3, 0, 0)}),
        ('2^4000 less itself', g, VALUE, far, None,
         {1: (3298, 0, 0, 0), 2: (2532, 0, 0, 0), 9: (-2830, 0, 0, 0), 10: (-3596, 0, 0, 0), 11: (0x5f0, 0, 0, 11, -4362)}),
        ('2^4000 and 2^-4000', g, VALUE, [wide(4000), wide(-4000)], None,
         {1: (3298, 0, 0, 2 ** 702), 2: (2597, 0x20, 3995, 0), 3: (1831, 0x20, 3995, 0)}),
        ('their negatives', g, VALUE, [wide(4000, 1), wide(-4000, 1)], None,
         {1: (3298, 0, 0, -2 ** 702), 2: (2597, -0x20, 3995, 0), 3: (1831, -0x20, 3995, 0)}),
        ('S beside a boundary', f, VALUE, near, None,
         {1: (298, 0, 0, 2 ** 702), 2: (-403, 2 ** 53, 947, 2 ** 13), 3: (at(1000), 0x10, 1, 3, -1155)}),
        ('S below a boundary', f, VALUE, [at(1000), at(-390, 1), at(-900)], None, {2: (-403, 2 ** 53, 947, -2 ** 13)}),
        ('above one of minus', f, VALUE, [at(1000, 1), at(-390), at(-900)], None, {2: (-403, -2 ** 53, 947, 2 ** 13)}),
        ('and of minus', f, VALUE, [v ^ 1 << 63 for v in near], None,
         {1: (298, 0, 0, -2 ** 702), 2: (-403, -2 ** 53, 947, -2 ** 13), 3: (at(1000, 1), 0x10, 2, 3, -1155)}),
        ('the next quotient', f, VALUE, below, None,
         {1: (298, 0, 0, 2 ** 702 - 1), 2: (-403, 2 ** 54, 946, 0), 3: (at(1000), 0x10, 1, 3, -1169)}),
        ('magnitudes', f, MAGNITUDE, [v ^ 1 << 63 for v in near], None, {1: (298, 0, 0, 2 ** 702), 2: (-403, 2 ** 53, 947, 2 ** 13)}),
        # T is 1001, one more than the product's position
        ('products', f, VALUE, [at(500), at(-400), at(-500)], [at(500), at(10), at(-400)],
         {1: (299, 0, 0, 2 ** 701), 2: (-402, 2 ** 53, 947, 2 ** 12), 3: (at(1000), 0x10, 1, 3, -1155)}),
        ('squares', f, SQUARE, [at(500), at(-195, 1), at(-450)], None, {1: (299, 0, 0, 2 ** 701), 2: (-402, 2 ** 53, 947, 2 ** 12)}),
        ('a binary16 ends in 1', (0, 5, 16), VALUE, [0x7bff, 1], None, {1: (0x7bff, 0x90, 1, 1, -687)}),
        ('the longest', *lowest[:1], VALUE, lowest[1], None,
         {1: (134217025, 0, 0, 3 * 2 ** 701), 2: (134216324, 6, 134217725, 0), 3: (134215558, 6, 134217725, 0),
          350438: (134216324 - 766 * 350436, 6, 134217725, 0)}),
    ]
    made = []
    for note, f, summand, left, right, answers in rows:
        for k, answer in answers.items():
            call = Within(note, f, {}, left, right, summand, k)
            r = call.record
            found = (r.result, r.flags, r.leans, r.passes, r.edge) if call.shown is None else (call.shown[0], *(call.shown[1] or (0, 0)), call.shown[2])
            assert found == answer, (note, k, found)
            made.append(call)
    return made


def within_passes(draw):
    """Allowances from 1 to one more than the passes: binary64 from end to end, sums in 2, 3 and 4 passes, dots and squares in 2 to 7."""
    made = []
    for i, case in enumerate(ends_of_binary64()):
        if case.c['rounding'] == EVEN and case.passes > 1 and i % 2:
            made += within_each('binary64 end to end', case)
    wanted = {(passes, False): 2 for passes in (2, 3, 4)} | {(passes, True): 1 for passes in range(2, 7)}
    while any(wanted.values()):
        case = drawn(draw, Format(draw.below(4), *draw.choice(((11, 64), (11, 64), (11, 33), (12, 14)))), (staircase, near_tie, cancelling, descent))
        key = case.passes, case.is_product()
        if wanted.get(key):
            wanted[key] -= 1
            made += within_each('in %d passes' % case.passes, case)
    case = drawn(draw, DOUBLE, (chain_of_seven,))
    while case.c['daz']:
        case = drawn(draw, DOUBLE, (chain_of_seven,))
    return made + within_each('in 7 passes', case)


def within_boundaries():
    """A sum beside a number, or the middle between two: below it, on it and above it, of either sign, over a list and over pairs."""
    made = []
    # of each twelve in a row, one of every sign, side, middle and list or pairs, in another mode
    for i, case in enumerate(boundaries()):
        if i // 24 == i % 8:
            made += within_each('beside a boundary', case, sorted({1, case.passes // 2 + 1, max(case.passes - 1, 1), case.passes}))
    # few digits of S beside the boundary, and a term below: the pass does not decide
    for kind, negative, below in product(range(4), range(2), range(2)):
        f = Format(kind, 12, 64)
        case = Case(f, {'rounding': 2 * kind + below}, [power(f, 1000, negative), power(f, -390, below, kind), power(f, -900)])
        made += within_each('S beside a boundary', case, (2, 3))
    return made


# formats whose chains have runs of passes that see no term
RUNS = ((12, 14), (13, 15), (14, 64), (15, 41), (17, 64), (20, 33), (24, 61))


def within_runs():
    """Chains with runs of empty passes, at both ends of a run and inside it: behind terms that cancel, behind a boundary of either sign, and two runs in
    one chain; of each summand and of pairs. The longest has 350,439 passes."""
    made = []
    for i, (e, w) in enumerate(RUNS):
        f = Format(i % 4, e, w)
        c = {'rounding': i % 8, 'tininess': i % 2}
        big, least = power(f, f.emax, i % 2), 1 + f.sign * (i // 2 % 2)
        lists = [([big, least, big ^ f.sign],), ([big, least],), ([least, big], None, (MAGNITUDE, SQUARE)[i % 2]),
                 ([big, 1, big ^ f.sign], [big, least, big]), ([big, power(f, 0), least], [big, power(f, 3), power(f, 1)])]
        for turn in (i, i + 2):
            case = Case(f, c, *lists[turn % 5])
            made += within_each('a run of empty ones', case, at_ends(case.passes))
    f = Format(NOINF, 20, 64)
    some, middle = power(f, f.emax - 1), power(f, 5, 0, 3)
    case = Case(f, {}, [some, middle, 1, middle ^ f.sign, some ^ f.sign])
    # the first run ends where the pair in the middle comes into sight, and what is left of that has no digit either
    terms, top = sum_terms(VALUE, operands(f, case.c, case.left)[0])
    turns = [k for k, (_, _, s, _) in enumerate(all_passes(f.p, tuple(terms), top), 1) if s]
    made += within_each('two runs', case, at_ends(case.passes, case.passes // 2 - 1, case.passes // 2 + 1, *turns))
    for f, left in ((Format(IEEE, 28, 30), [0x1ffffffd, 1]), (Format(FINITE, 28, 64), [power(Format(FINITE, 28, 64), 2 ** 27), 1 << 63 | 1])):
        case = Case(f, {'rounding': f.kind}, left)
        made += within_each('the longest run', case, at_ends(case.passes, 3, 1000, case.passes - 2, MOST_PASSES))
    return made


def within_none():
    """No pass is run: NaNs by each rule, infinities, zeros, no values, subnormal numbers taken as zeros. Every allowance but 0 is enough."""
    made = []
    add = lambda note, f, *rest, **more: made.extend(
        Within(note, f, *rest, **more, allowance=k, first=len(made)) for k in ((1, MOST_PASSES) if len(made) % 3 else (2,)))
    minus, one, infinite, quiet, signaling = 1 << 63, 0x3ff0000000000000, 0x7ff0000000000000, 0x7ff8000000000005, 0xfff0000000000003
    f = 0, 11, 64
    for rule in range(4):
        add('NaNs', f, {'nan': rule, 'negative': rule % 2}, [one, quiet, signaling, minus + quiet + 1])
        add('NaNs in pairs', f, {'nan': rule}, [quiet, 0, one], [one, infinite, minus + quiet])
    for summand in range(3):
        add('an infinity', f, {'saturate': 1}, [one, minus + infinite], None, summand)
        add('infinity and a NaN', f, {}, [minus + infinite, quiet], None, summand)
        add('zeros', f, {'rounding': DOWN}, [0, minus, 0], None, summand)
        add('taken as zeros', f, {'daz': 1}, [minus + 1, 2], None, summand)
    add('both infinities', f, {'negative': 1}, [infinite, minus + infinite, power(DOUBLE, 1000), 1])
    add('0 times infinity', f, {}, [0, one], [infinite, one])
    add('infinities in pairs', f, {}, [minus + infinite, power(DOUBLE, 1000), 1], [one, one, 1])
    add('zeros in pairs', f, {}, [0, minus, one], [one, one, minus])
    add('taken as zeros', f, {'daz': 1, 'rounding': DOWN}, [1, minus + 3], [one, one])
    for kind in range(4):
        add('no values', (kind, 5, 16), {'rounding': DOWN}, [])
        add('no pairs', (kind, 28, 64, -2 ** 28), {}, [], [])
        add('zeros', (kind, 8, 32), {'rounding': DOWN}, [0, 0] if kind == FNUZ else [0, 1 << 31])
    add('NaN', (1, 4, 8), {}, [0x38, 0xff])
    add('NaN', (2, 4, 8, 11), {}, [0x38, 0x80, 0x39])
    return made


def within_settings():
    """The settings of a full answer, which an unfinished one does not show: roundings and signs, tininess and flush, saturation, precisions; and
    denormals-are-zero, which leaves terms out, and so passes."""
    made = []
    for mode, negative in product(range(8), range(2)):
        values = [power(DOUBLE, 0, negative, mode % 2), power(DOUBLE, -53, negative), power(DOUBLE, -1000, mode // 2 % 2)]
        made += within_each('each rounding', Case(DOUBLE, {'rounding': mode}, values), (1, 2))
    for tininess, flush, daz in product(range(2), repeat=3):
        c = {'tininess': tininess, 'flush': flush, 'daz': daz, 'rounding': UP}
        made += within_each('tiny, subnormal', Case(DOUBLE, c, [power(DOUBLE, 1023), 3, power(DOUBLE, 1023, 1), power(DOUBLE, -1022)]))
        made += within_each('tiny product', Case((0, 8, 32), c, [power(Format(0, 8, 32), -100), 1], [power(Format(0, 8, 32), -40), 5]), (1 + flush,))
    for kind, saturate in product(range(4), range(2)):
        f = Format(kind, 11, 64)
        made += within_each('overflow', Case(f, {'saturate': saturate}, [f.largest(kind % 2, f.p)] * 2 + [1]), (1, 2))
    for q in (1, 24, 52, 53):
        # the chain asks for the format's own digits, whatever the precision
        values = [power(DOUBLE, 700), power(DOUBLE, 700 - q), power(DOUBLE, -500, q % 2)]
        made += within_each('precision', Case(DOUBLE, {'precision': q}, values), (1, 2))
    return made


def within_biases():
    """Named biases: of products, the greatest and the least, and the kind's own, whose estimate is the one without it."""
    made = []
    for i, (e, w, bias) in enumerate(PRODUCTS):
        f = Format(i % 4, e, w, bias)
        top, low = f.emax - 1, max(f.emin, f.emax - 4000)
        values = [power(f, top, i % 2), power(f, (top + low) // 2), power(f, low, 1 - i % 2)]
        if i % 4 == 0:
            case = Case(f, {}, values, [power(f, top), power(f, low), power(f, low)])
        else:
            case = Case(f, {'rounding': i % 8}, values + [values[0] ^ f.sign] * (i % 3 == 0), None, i % 3)
        made += within_each('a named bias', case, sorted({1, max(case.passes - 1, 1), case.passes + i % 2}))
    for kind, bias in product(range(4), (2 ** 28, -2 ** 28)):
        f = Format(kind, 12, 64, bias)
        case = Case(f, {}, [power(f, f.emax, kind % 2), 1, power(f, f.emax - 900)])
        made += within_each('2^28 and -2^28', case, (1, 2, case.passes))
    for kind, e in product(range(4), (11, 13)):
        values = [power(Format(kind, e, 64), n, n == 3) for n in (900, 3, -900)]
        for k in (1, 2):
            plain, own = (Within("the kind's own", f, {}, values, None, VALUE, k) for f in ((kind, e, 64), (kind, e, 64, own_bias(kind, e))))
            assert plain.after() == own.after()
            made.append(own)
    return made


def within_formats(draw):
    """Every E, in turn of each kind, and two widths: lists drawn, with an allowance that is enough or is not."""
    made = []
    for e in range(2, 29):
        for w in (e + 2, 64):
            case = drawn(draw, Format((e + w) % 4, e, w), (near_tie, cancelling, staircase, descent, mixed))
            made += within_each('E from 2 to 28', case, [draw.between(1, min(case.passes, 3000) + 1)])
    return made


def within_orders(draw):
    """The same list without a NaN in five orders: one estimate for each allowance."""
    made = []
    while len(made) < 30:
        f = Format(len(made) // 5 % 4, *FAR[len(made) // 5 % 11])
        case = drawn(draw, f, (staircase, cancelling, descent))
        if case.passes < 2:
            continue
        pairs = list(zip(case.left, case.right or case.left))
        answers = set()
        for order in (pairs, pairs[::-1], sorted(pairs), draw.shuffled(pairs), draw.shuffled(pairs)):
            left, right = map(list, zip(*order))
            call = Within('in five orders', numbers_of(f), case.c, left, case.right and right, case.summand, case.passes - 1)
            answers.add(call.after())
            made.append(call)
        assert len(answers) == 1
    return made


def within_spoiled(numbers, dot, turn):
    """A call of which exactly the conditions of these numbers hold."""
    case = spoiled(numbers - {16}, dot, turn) if numbers - {16} else Case((turn % 4, 5, 16), {}, [ONE, 2], [ONE, 3] if dot else None)
    call = Within(', '.join(map(str, sorted(numbers))), (case.kind, case.e, case.w), case.c, case.left, case.right, case.summand,
                  0 if 16 in numbers else 1 + turn, case.more, (0, 143, 24, 32)[turn % 4] if 2 in numbers else WITHIN_BUFFER, 13 * turn)
    assert call.holds == numbers and call.returned % 256 == next(n for n in WITHIN_ORDER if n in numbers)
    return call


def within_refusals():
    """Each refusal at its limits, each two at once, and more; buffers and lists of every length near the limits. Kind 4 is refused, whatever its lists."""
    made = []
    add = lambda note, f, c, left, right=None, summand=0, **more: made.append(Within(note, f, c, left, right, summand, first=5 * len(made) % 256, **more))
    for room in (0, 24, 32, 143, 144, 145, 151):
        add('buffers', HALF, {}, [ONE, 1], [ONE, 1] if room % 2 else None, room=room)
    for n in range(1, 8):
        add('lists', HALF, {}, [ONE] * (n % 3), None, more=(n, 0))
        add('lists', HALF, {}, [ONE], [ONE], more=(n, 0) if n % 2 else (0, n))
    for f in (HALF, (9, 5, 16), (4, 15, 80), (0, 1, 16), (0, 5, 16, 0, 7), (0, 5, 16, 2, 0), (0, 5, 16, 2 ** 28 + 1)):
        add('allowance 0', f, {}, [ONE], allowance=0, more=(2 * (f[0] == 4), 0))
        add('allowance 0', f, {'rounding': 8}, [ONE], [ONE, 1 << 40], allowance=0, more=(2, 4) if f[0] == 4 else (0, 0))
    for i, f in enumerate(((4, 15, 80), (4, 11, 64), (4, 5, 16), (9, 5, 16), (15, 11, 64), (0, 1, 16), (1, 29, 64), (2, 11, 12), (3, 5, 65), (0, 28, 29))):
        add('formats', f, {}, [1, 2], [3, 4] if i % 2 else None, more=(4, 4 * (i % 2)) if f[0] == 4 else (0, 0))
    # a list of kind 4 is counted by tens, and refused with 3 where it is whole
    for i, (n, more) in enumerate(KIND_4_LISTS):
        f = KIND_4_FORMATS[i % len(KIND_4_FORMATS)]
        add('kind 4, by tens', f, {'rounding': i % 9}, [ONE] * n, None, i % 4, more=(more, 0), room=(144, 152, 148, 143)[i % 4])
        add('kind 4, by tens', f, {}, [ONE] * n, [1] * n, more=(more, more), allowance=(1, 0, 2 ** 64 - 1)[i % 3])
        add('kind 4, by tens', f, {}, [ONE] * n, [1], more=(more, 2))
        add('kind 4, by tens', f, {}, [], [1] * n, more=(0, more))
    for i, (named, bias) in enumerate(((0, 1), (0, -1), (0, 15), (0, 2 ** 63 - 1), (2, 0), (2, 15), (15, -1), (1, 2 ** 28 + 1), (1, -2 ** 28 - 1), (1, 2 ** 63 - 1))):
        add('biases', (0, 5, 16, named, bias), {}, [ONE], [ONE] if i % 2 else None)
    for i, (name, most) in enumerate(zip(SETTINGS, RANGES)):
        add('settings', HALF, {name: (most, 15)[i % 2]}, [ONE], [ONE] if i // 2 % 2 else None)
    add('precision', HALF, {'precision': 12}, [ONE])
    add('precision', HALF, {'precision': 11}, [ONE])
    add('summands', HALF, {}, [ONE], None, 3)
    add('summands', HALF, {}, [], None, 15)
    add('a dot has none', HALF, {}, [ONE], [ONE], 15)
    for n, m in ((2, 3), (3, 2), (0, 1), (1, 0), (8, 7)):
        add('pairs', HALF, {}, [ONE] * n, [ONE] * m)
    for i in range(4):
        far = [ONE] * i + [ONE + (1 << (16, 63)[i % 2])] + [ONE] * (3 - i)
        add('stray bits', HALF, {}, far)
        add('stray bits', HALF, {}, far, [STRAY] * 4)
        add('stray bits', HALF, {}, [ONE] * 4, far)
    add('stray bits', HALF, {}, [ONE] * 11 + [STRAY])
    add('stray beside a NaN', HALF, {}, [0x7e00, STRAY])
    for numbers in combinations((1, 2, 16, 3, 4, 5, 7), 2):
        for dot in range(5 in numbers, 2):
            made.append(within_spoiled(set(numbers), dot, len(made) % 4))
    for n in (3, 5, 7):
        for numbers in list(combinations((1, 2, 16, 3, 4, 5, 7), n))[::4]:
            made.append(within_spoiled(set(numbers), 5 in numbers or n % 2, len(made) % 4))
    return made


def within_drawn(draw):
    """Lists drawn, of every kind and of the formats that are named."""
    made = []
    for i in range(40):
        f = Format(i % 4, *PAIRS[i % 7]) if i % 2 else Format(*WIDE[i // 2 % 11])
        case = drawn(draw, f, (mixed, near_tie, cancelling, staircase))
        made += within_each('drawn', case, [draw.between(1, case.passes + 1)])
    return made


def within():
    draw = Draw(13)
    return (within_examples() + within_passes(draw) + within_boundaries() + within_runs() + within_none() + within_settings() + within_biases()
            + within_formats(draw) + within_orders(draw) + within_refusals() + within_drawn(draw))


def within_asked(binary):
    """Holds every accepted call to the oracle: result, flags and passes of the plain total, also where the allowance is too small. How many there are of
    which it knows the format."""
    known = set(known_formats(binary))
    calls = [call for call in within() if not call.refusal and call.numbers[:3] + call.numbers[4:] * call.numbers[3] in known]
    for call, answer in zip(calls, asked(binary, [call.case() for call in calls])):
        if differs(call.record, answer):
            sys.exit('%s: %s\n  oracle %s, model %x %d %d' % (
                call.note, call.case().line(), answer, call.record.result, call.record.flags, call.record.passes))
    return sum(call.shown is None for call in calls), sum(call.shown is not None for call in calls)


def cover_within(every):
    accepted = [call for call in every if not call.refusal]
    full, part = [call for call in accepted if call.shown is None], [call for call in accepted if call.shown]
    print('%5d  calls within an allowance, %d of them in time, %d not' % (len(every), len(full), len(part)))
    total = lambda call: call.summand if call.right is None else 3
    fewest('full, not, by total (three sums, a dot)', accepted, lambda call: (call.shown is None, total(call)), (False, True), range(4))
    fewest('full, not, by kind', accepted, lambda call: (call.shown is None, call.numbers[0]), (False, True), range(4))
    fewest('full by rounding', full, lambda call: (call.c['rounding'],), range(8))
    fewest('not full, by rounding', part, lambda call: (call.c['rounding'],), range(8))
    fewest('E', accepted, lambda call: (call.numbers[1],), range(2, 29))
    sign = lambda n: (n > 0) - (n < 0)
    fewest("no boundary, sign of S", [call for call in part if not call.shown[1]], lambda call: (sign(call.shown[2]),), (-1, 0, 1))
    fewest("sign of the boundary, sign of S", [call for call in part if call.shown[1]],
           lambda call: (sign(call.shown[1][0]), sign(call.shown[2])), (-1, 1), (-1, 0, 1))
    left = lambda call: call.record.passes - call.allowance
    fewest('passes that are left: 1, 2, 3', part, lambda call: (left(call),), range(1, 4))
    fewest('as many as the passes, one more', [call for call in full if call.record.passes], lambda call: (left(call),), (0, -1))
    fewest('allowances 1 to 6 that are not enough', part, lambda call: (call.allowance,), range(1, 7))
    print('%5d  in a run of empty passes, %d of them at its first, %d at its last' % runs_of(part))
    fewest('no pass, by total', [call for call in full if not call.record.passes], lambda call: (total(call),), range(4))
    fewest('a bias named, full, not', [call for call in accepted if call.numbers[3]], lambda call: (call.shown is None,), (False, True))
    fewest('flag 128 of the total that is not shown', [call for call in part if call.record.flags & SUBNORMAL], lambda call: (total(call),), range(4))
    refused = [call for call in every if call.refusal]
    fewest('one refusal alone', [call for call in refused if len(call.holds) == 1], lambda call: tuple(call.holds), (1, 2, 16, 3, 4, 5, 7))
    fewest('two refusals at once, by pair', [call for call in refused if len(call.holds) == 2], lambda call: (tuple(sorted(call.holds)),),
           map(tuple, map(sorted, combinations((1, 2, 16, 3, 4, 5, 7), 2))))
    print('%5d  passes of the longest chain' % max(call.record.passes for call in accepted))


def runs_of(part):
    """How many unfinished answers show an empty pass between two that have the same boundary and lie 766 apart, how many the first such pass of a run, and
    how many the last."""
    inside = first = last = 0
    for call in part:
        _, _, steps = call.total()
        still = lambda i: 0 < i < len(steps) and steps[i - 1][2] == steps[i][2] == 0 and steps[i - 1][0] - steps[i][0] == 766
        at = call.allowance - 1
        if still(at) or still(at + 1):
            inside += 1
            first += not still(at)
            last += not still(at + 1)
    return inside, first, last


# ---- the contribution that reaches a wanted total

REACH_ROW, REACH_LIST, REACH_BUFFER, REACH_NOTE, REACH_ANSWER = 383, 12, 16, 20, 8


class Reach:
    """A list, a wanted total, and the contribution that reaches it from there. The functions have no buffer, and so no refusal 2."""

    def __init__(self, note, f, c, values, wanted, room=REACH_BUFFER):
        self.note, self.numbers, self.c = note, five(f), {**PLAIN, **c}
        self.values, self.wanted = values, wanted
        self.more, self.room, self.first = 0, room, 0xa0
        self.holds = contribution_conditions(*self.numbers, self.c, values, wanted, room)
        given = lambda order: next((n for n in order if n in self.holds), 0)
        self.refusal, lowest = given(CONTRIBUTION_ORDER[1:]), given(CONTRIBUTION_ORDER)
        self.place = stray(self.numbers[2], [*values, wanted])[0] if self.refusal == 7 else 0
        self.returned = lowest + 256 * self.place * (lowest == 7)
        self.number = self.above = None
        if self.refusal in (0, 14):
            f, _ = format_of(self.numbers)
            self.number, self.above = contribution(f, tuple(self.c[name] for name in SETTINGS), tuple(values), wanted)

    def format(self):
        return Format(*format_of(self.numbers)[0])

    def before(self):
        return bytes((self.first + 7 * i) % 256 for i in range(REACH_BUFFER))

    def after(self):
        return self.before() if self.returned else self.number.to_bytes(8, 'little') + self.before()[REACH_ANSWER:]

    def row(self):
        kind, e, w, named, bias = self.numbers
        assert len(self.note) <= REACH_NOTE and len(self.values) <= REACH_LIST and self.room <= REACH_BUFFER
        head = 'c %x %02x %02x %s %02x %x %02x %02x %02x %x %s %s %03x %x %016x %016x' % (
            kind, e, w, ''.join('%x' % self.c[name] for name in SETTINGS[:7]), self.c['precision'], self.refusal, len(self.values), self.more, self.room,
            named, signed(bias, 16), self.note.ljust(REACH_NOTE, '.'), self.returned, self.place, self.wanted, self.number or 0)
        # what stands behind the list is no zero, and has bits that are stray in most formats
        values = self.values + [0x5a5a5a5a5a5a5a5a] * (REACH_LIST - len(self.values))
        text = ' '.join([head, self.before().hex(), self.after().hex()] + ['%016x' % v for v in values]) + '\n'
        assert len(text) == REACH_ROW
        return text

    def case(self, k):
        """The plain sum with the number at the place k behind the list."""
        return Case(format_of(self.numbers)[0], self.c, [*self.values, at_place(self.format(), k)])


def reach_of(row):
    """The call of a row, with the model's answer."""
    number = lambda at, digits: int(row[at:at + digits], 16)
    c = {name: number(10 + i, 1) for i, name in enumerate(SETTINGS[:7])}
    c['precision'] = number(18, 2)
    values = [number(at, 16) for at in range(179, REACH_ROW - 1, 17)]
    f = number(2, 1), number(4, 2), number(7, 2), number(32, 1), number(34, 17)
    reach = Reach(row[52:72].rstrip('.'), f, c, values[:number(23, 2)], number(79, 16), number(29, 2))
    reach.more, reach.first = number(26, 2), number(113, 2)
    return reach


def reach_examples():
    """Rows by hand; of those that are refused the number of the refusal with a minus."""
    at, half, minus = lambda n, negative=0: power(DOUBLE, n, negative), (0, 5, 16), 1 << 63
    f = 0, 11, 64
    rows = [
        ('nothing wants -0', f, {}, [], minus, 0),
        ('nothing wants 0', f, {}, [], 0, 0),
        ('1 wants 1', f, {}, [at(0)], at(0), 0xbc90000000000000),
        ('1 wants 2', f, {}, [at(0)], at(1), 0x3fefffffffffffff),
        ('2^-60, to odd', f, {'rounding': TO_ODD}, [at(-60)], at(0), -14),
        ('1, to odd', f, {'rounding': TO_ODD}, [at(0)], at(0), 0),
        # the unit of 350 is 2^-44, that of 50 is 2^-47
        ('300 wants 350', f, {}, [0x4059000000000000, 0x4069000000000000], 0x4075e00000000000, 0x4048fffffffffffc),
        ('of precision 1', half, {'precision': 1}, [], 0, 0x8200),
        ('1 wants 1', half, {}, [0x3c00], 0x3c00, 0x8c00),
        ('toward negative', half, {'rounding': DOWN}, [0x3c00], 0x3c00, 0),
        ('toward positive', half, {'rounding': UP}, [0x3c00], 0x3c01, 1),
        ('toward zero', half, {'rounding': TO_ZERO}, [0x3c00], 0x3c00, 0),
        ('toward zero, minus', half, {'rounding': TO_ZERO}, [0xbc00], 0xbc00, 0x93ff),
        ('the largest', half, {}, [0x7bff], 0x7bff, 0xcbff),
        ('twice the largest', half, {}, [0x7bff, 0x7bff], 0x7bff, 0xfbff),
        ('minus the largest', half, {}, [0xfbff], 0xfbff, 0xcbff),
        ('the same, saturated', half, {'saturate': 1}, [0xfbff], 0xfbff, 0xfbff),
        ('toward positive', half, {'rounding': UP}, [0xfbff], 0xfbff, 0xfbff),
        ('the least wants -0', half, {}, [1], 0x8000, 0x8001),
        ('three digits', half, {'precision': 3}, [0x3c00], 0x3c01, -14),
        ('flushed', half, {'flush': 1}, [0x3c00], 0x3c00, -4),
        ('taken as zeros', half, {'daz': 1}, [0x3c00], 0x3c00, -4),
        ('the largest wanted', half, {}, [0xfbff, 1], 1, 0x7bff),
        ('too far below', half, {}, [0xfbff], 1, -14),
        ('twice as far', half, {}, [0xfbff, 0xfbff], 0xfbff, 0x7bff),
        ('farther', half, {}, [0xfbff, 0xfbff], 0xfbfe, -14),
        *(('3 wants %d places' % n, (0, 2, 4), {}, [5], n, answer) for n, answer in enumerate((0xd, -14, 0xc, 0xb, 0xa, 0))),
    ]
    made = []
    for note, f, c, values, wanted, answer in rows:
        reach = Reach(note, f, c, values, wanted)
        assert answer == (-reach.refusal if reach.refusal else reach.number), (note, reach.refusal, reach.number)
        made.append(reach)
    return made


def reach_lists(f, v, turn):
    """One of seven lists of which v may be wanted."""
    one, far = power(f, 1), power(f, f.emax - 1)
    beside = at_place(f, min(place_of(f, v) + 1, last_place(f)))
    return [[], [v], [v, one, one ^ f.sign], [beside], [v, 1 + f.sign * (turn % 2)], [far, v, far ^ f.sign, beside], [one, one ^ f.sign, f.sign]][turn % 7]


def reach_roundings():
    """Each rounding and sign, and of the wanted totals the least number, a subnormal one, the greatest of these, the least normal number, and one that is
    even, odd, a power of two, the largest."""
    made = []
    for i, (mode, negative, n) in enumerate(product(range(8), range(2), range(8))):
        f = Format(IEEE, *PAIRS[i % 7])
        least, one = 1 << f.fraction, power(f, 0)
        v = (1, least // 2 + 1, least - 1, least, one + 2, one + least // 2 + 1, one, last_place(f))[n] + f.sign * negative
        made.append(Reach('each rounding', numbers_of(f), {'rounding': mode}, reach_lists(f, v, i // 7 + n), v))
    return made


def reach_overflows():
    """The largest number wanted, by rounding, sign and saturation, from lists of it and half its unit."""
    made = []
    for i, (mode, negative, saturate) in enumerate(product(range(8), range(2), range(2))):
        f = Format(IEEE, *PAIRS[i % 7])
        v = last_place(f) + f.sign * negative
        half = power(f, f.emax - f.p, negative)
        values = [[v, v], [v, half], [v], [v ^ f.sign], [half ^ f.sign, v, 1]][i % 5]
        made.append(Reach('the largest', numbers_of(f), {'rounding': mode, 'saturate': saturate}, values, v))
        if i % 2:
            made.append(Reach('the one before', numbers_of(f), {'rounding': 7 - mode, 'saturate': saturate}, values, v - 1))
    return made


def reach_precisions():
    """Fewer digits than the format's: a wanted total that has no more, at the ends of an exponent and within it, one that has more, and the largest."""
    made = []
    for i, (mode, step, n) in enumerate(product(range(8), range(3), range(3))):
        f = Format(IEEE, *PAIRS[i % 7])
        q = (1, 2, f.p - 1)[step]
        result = f.largest(i % 2, q) if n == 2 else f.number(i % 2, ((1 << q) - 1, 1 << q - 1)[i // 9 % 2], 1 - q - i % 3)
        c = {'rounding': mode, 'precision': q, 'saturate': i // 3 % 2}
        values = reach_lists(f, result, i)
        made.append(Reach('precision', numbers_of(f), c, values, result + (n == 1)))
    return made


def reach_zeros():
    """Zeros wanted of either sign, of every precision in turn, from lists near zero."""
    made = []
    for i, (mode, negative, n) in enumerate(product(range(8), range(2), range(3))):
        f = Format(IEEE, *PAIRS[i % 7])
        least = power(f, f.emin, i % 2)
        values = [[], [1 + f.sign * (i % 2)], [least, 3], [power(f, 2), power(f, 2, 1), least], [f.sign, 0]][(i + n) % 5]
        made.append(Reach('a zero wanted', numbers_of(f), {'rounding': mode, 'precision': i % f.p * (n > 0)}, values, f.sign * negative))
    return made


def reach_zero_answers():
    """Zero is the answer, +0: the list's sum is the edge from where on the total is reached, or lies above it by less than any number."""
    made = []
    for e, w in ((5, 16), (11, 64), (8, 32)):
        f = Format(IEEE, e, w)
        even, odd, half, trace = power(f, 0), power(f, 0, 0, 1), power(f, -f.p), 1
        minus = lambda *values: [v ^ f.sign for v in values]
        rows = [(EVEN, [odd, half], odd + 1), (EVEN, minus(odd + 1, half), odd + 1 + f.sign), (TIES_AWAY, [even, half], odd),
                (TIES_TO_ZERO, minus(odd, half), odd + f.sign), (UP, [even, trace], odd), (UP, minus(odd + 1, trace ^ f.sign), odd + f.sign),
                (DOWN, [odd], odd), (DOWN, minus(even), even + f.sign), (TO_ZERO, [odd], odd), (TO_ZERO, [f.sign + odd + 1, trace], odd + f.sign),
                (AWAY, [even, trace], odd), (AWAY, minus(odd), odd + f.sign), (TO_ODD, [odd + 1], odd + 1), (TO_ODD, [even, trace], odd)]
        for mode, values, wanted in rows:
            made.append(Reach('zero is the answer', (0, e, w), {'rounding': mode}, values, wanted))
            assert made[-1].number == 0, (f.w, mode, values, wanted, made[-1].number)
    return made


def reach_biases(draw):
    """Named biases: at the top, in the middle and at the bottom of the numbers, the greatest and the least biases, and the kind's own, whose answers are those
    without it."""
    made = []
    for i, (e, w, bias) in enumerate(PRODUCTS):
        f = Format(IEEE, e, w, bias)
        for n in range(2):
            near = (1, f.ones // 2, f.ones - 1)[(i + n) % 3]
            numbers = [any_number(draw, f, near) for _ in range(draw.between(1, 4))]
            c = {'rounding': (i + 3 * n) % 8, 'precision': draw.choice([0, 0, draw.between(1, f.p)]), 'saturate': n}
            made.append(Reach('a named bias', numbers_of(f), c, numbers, any_wanted(draw, f, c, numbers, near)))
    for bias, mode in product((2 ** 28, -2 ** 28), range(4)):
        f = Format(IEEE, *((11, 64), (5, 16), (28, 64), (3, 6))[mode], bias)
        numbers = [any_number(draw, f, 2) for _ in range(3)]
        made.append(Reach('2^28 and -2^28', numbers_of(f), {'rounding': 2 * mode}, numbers, any_wanted(draw, f, {**PLAIN, 'rounding': 2 * mode}, numbers, 2)))
    for e, w in ((5, 16), (8, 32), (11, 64), (3, 5)):
        f = Format(IEEE, e, w)
        for _ in range(2):
            numbers = [any_number(draw, f, f.bias) for _ in range(3)]
            wanted = any_wanted(draw, f, PLAIN, numbers, f.bias)
            plain, own = (Reach("the kind's own", g, {}, numbers, wanted) for g in ((0, e, w), (0, e, w, own_bias(0, e))))
            assert plain.after() == own.after() and plain.returned == own.returned
            made.append(own)
    return made


def any_number(draw, f, near):
    """A finite number close to an exponent."""
    while True:
        b = any_value(draw, f, near) if draw.chance(40) else f.normal(draw.bits(1), min(max(near + draw.between(-3, 3), 0), f.ones - 1), draw.bits(f.fraction))
        if f.decode(b)[0] in ('number', 'zero') and (f.e < 20 or abs((b >> f.fraction) % (1 << f.e) - near) <= WIDEST):
            return b


def any_wanted(draw, f, c, values, near):
    """A finite wanted total: what the list gives with a number, that with one place more or less, what it gives alone, or a number."""
    longer, last = Longer(f, {**PLAIN, **c}, values), last_place(f)
    number = any_number(draw, f, near)
    k = longer.place(place_of(f, number) if draw.chance(70) else 0) + draw.choice([0, 0, 0, 0, 1, -1, 2])
    if draw.chance(15):
        k = place_of(f, number)
    k = min(max(k, -last), last)
    return f.sign * draw.bits(1) if k == 0 else at_place(f, k)


def reach_settings(draw, f):
    """Settings drawn, without flush and denormals-are-zero."""
    return {**settings(draw, f), 'flush': 0, 'daz': 0}


def drawn_reach(draw, note, f, near=None):
    """A list of one of the makers of lists to be summed, or numbers close to one exponent."""
    near = draw.choice([1, f.bias, f.bias, f.ones - 2]) if near is None else near
    c = reach_settings(draw, f)
    if draw.chance(50) or f.e < 4:
        values = [any_number(draw, f, near) for _ in range(draw.below(6))]
    else:
        case = drawn(draw, f, (near_tie, cancelling, staircase))
        while case.right is not None or not is_finite_in(f, case.left):
            case = drawn(draw, f, (near_tie, cancelling, staircase))
        values = case.left
        fields = [(v >> f.fraction) % (1 << f.e) for v in values]
        near = draw.choice(fields) if fields else near
    return Reach(note, numbers_of(f), c, values, any_wanted(draw, f, c, values, near))


def reach_small(draw):
    """Formats of few numbers, each of which is tried."""
    made = []
    for i in range(60):
        f = Format(IEEE, *((2, 4), (3, 5), (3, 6))[i % 3])
        last = last_place(f)
        values = [at_place(f, draw.between(-last, last)) for _ in range(draw.below(4))]
        c = {**reach_settings(draw, f), 'rounding': i // 3 % 8}
        k = min(max(Longer(f, {**PLAIN, **c}, values).place(draw.between(-last, last)), -last), last)
        wanted = at_place(f, draw.between(-last, last)) if i % 4 == 0 else at_place(f, k) or f.sign * (i % 2)
        made.append(Reach('few numbers', numbers_of(f), c, values, wanted))
    return made


def reach_formats(draw):
    """Every E from 2 to 28 with W = E + 2, W = 64 and a width drawn."""
    return [drawn_reach(draw, 'E from 2 to 28', Format(IEEE, e, w)) for e in range(2, 29) for w in (e + 2, 64, draw.choice(widths(e)))]


def reach_drawn(draw):
    """binary16, binary32 and binary64."""
    return [drawn_reach(draw, 'drawn', Format(IEEE, *((5, 16), (8, 32), (11, 64))[i % 3])) for i in range(60)]


def reach_orders(draw):
    """The same list in five orders: one answer."""
    made = []
    while len(made) < 30:
        f = Format(IEEE, *((11, 64), (5, 16), (8, 32), (3, 6), (15, 64))[len(made) // 5 % 5])
        reach = drawn_reach(draw, 'in five orders', f)
        values = reach.values
        if len(set(values)) < 3 or len(made) % 4 and reach.refusal:
            continue
        group = [Reach(reach.note, numbers_of(f), reach.c, order, reach.wanted)
                 for order in (values, values[::-1], sorted(values), draw.shuffled(values), draw.shuffled(values))]
        assert len({(other.number, other.returned) for other in group}) == 1
        made += group
    return made


def bits_of(x):
    """The encoding of a double."""
    return int.from_bytes(struct.pack('<d', x), 'little')


def reach_careers():
    """Amounts of years, in pounds and pence, and a total that is to be reached; Python's own sum of doubles, which is exact and rounded once to the nearest,
    says the same of the answer and of the number below it. Nothing makes nine of these amounts 0."""
    made = []
    pay = (18250.40, 19112.07, 20480.00, 21999.99, 23750.55, 26014.10, 28333.33, 30120.08, 31999.95, 33480.61, 35010.02, 36111.11)
    for n, wanted in ((0, 480.0), (1, 40000.0), (2, 37362.47), (3, 57842.48), (4, 100000.0), (5, 103593.0), (6, 129607.12), (7, 250000.0), (8, 188060.5),
                      (9, 0.0), (10, 253540.1), (11, 300000.0), (11, 288551.1), (11, 288551.10000000003), (12, 400000.0), (12, 1e15)):
        values = [bits_of(x) for x in pay[:n]]
        reach = Reach('a career', (0, 11, 64), {}, values, bits_of(wanted))
        below, found = (math.fsum([*pay[:n], double(at_place(DOUBLE, k))]) for k in (reach.above - 1, reach.above))
        assert below < wanted <= found and (found == wanted) == (reach.refusal == 0)
        made.append(reach)
    return made


def reach_spoiled(numbers, turn):
    """A call of which exactly the conditions of these numbers hold."""
    largest, infinite, quiet, minus = 0x7bff, 0x7c00, 0x7e00, 0x8000
    calls = {(False, False): [([ONE], ONE), ([ONE, 3], 0x4000), ([0x3555, ONE], 0x3c00), ([minus + 1, 0], minus)],
             (False, True): [([largest] * 3, ONE), ([ONE, ONE], 0x3c01), ([minus + largest] * 2, ONE), ([ONE], 0x3c01)],
             (True, False): [([largest, ONE], infinite), ([infinite, ONE], infinite), ([ONE, minus + infinite], minus + infinite),
                             ([minus, largest], infinite)],
             (True, True): [([quiet, ONE], ONE), ([ONE, infinite], ONE), ([ONE, ONE], infinite + 1), ([infinite, minus + infinite], infinite)]}
    values, wanted = calls[15 in numbers, 14 in numbers][turn % 4]
    c = {'precision': 3} if 14 in numbers and turn % 2 else {}
    if 4 in numbers:
        c.update(({'flush': 1}, {'daz': 1}, {'flush': 1, 'daz': 1}, {'flush': 2} if 14 not in numbers else {'daz': 1})[turn % 4])
        c.update(({'rounding': 8}, {'precision': 12})[turn // 2 % 2] if numbers.isdisjoint({14, 15}) and turn % 2 else {})
    f = HALF
    if 3 in numbers and numbers.isdisjoint({14, 15}):
        f = ((0, 1, 16), (4, 5, 16), (2, 5, 16), (0, 5, 16, 1, 2 ** 28 + 1))[turn % 4]
    elif 3 in numbers:
        f = ((1, 5, 16), (0, 5, 16, 2, 0), (3, 5, 16), (0, 5, 16, 0, 7))[turn % 4]
    if 7 in numbers:
        far = 1 << (16, 63, 17, 40)[turn % 4]
        values, wanted = (values[:-1] + [values[-1] + far], wanted + far * (turn % 4 == 2)) if turn % 2 == 0 else (values, wanted + far)
    reach = Reach(', '.join(map(str, sorted(numbers))), f, c, values, wanted, (0, 7, 1, 4)[turn % 4] if 2 in numbers else REACH_BUFFER)
    assert reach.holds == numbers and reach.returned % 256 == next(n for n in CONTRIBUTION_ORDER if n in numbers), (numbers, turn, reach.holds)
    return reach


def reach_alone():
    """Each refusal by itself, at its limits and one step inside them."""
    made = []
    add = lambda note, f, c, values, wanted, *room: made.append(Reach(note, f, c, values, wanted, *room))
    for room in range(10):
        add('buffers', HALF, {}, [ONE], ONE, room)
    for f in ((1, 5, 16), (2, 5, 16), (3, 5, 16), (4, 15, 80), (4, 5, 16), (9, 5, 16), (15, 5, 16), (0, 1, 16), (0, 0, 8), (0, 29, 64), (0, 11, 12),
              (0, 11, 65), (0, 28, 29), (0, 255, 255), (0, 2, 4), (0, 2, 64), (0, 28, 30), (0, 28, 64)):
        add('formats', f, {}, [0, 1], 2)
    for named, bias in ((0, 1), (0, -1), (0, 15), (0, 2 ** 63 - 1), (2, 0), (2, 15), (3, 15), (15, -1), (1, 2 ** 28 + 1), (1, -2 ** 28 - 1), (1, 2 ** 63 - 1),
                        (1, 1 - 2 ** 63), (1, 2 ** 28), (1, -2 ** 28), (1, 0), (0, 0)):
        add('biases', (0, 5, 16, named, bias), {}, [ONE], ONE)
    for name, most in zip(SETTINGS, RANGES):
        inside = 0 if name in ('flush', 'daz') else most - 1
        for n in (inside, most, 15) if inside else (1, most, 15):
            add('settings', HALF, {name: n}, [ONE], ONE)
    for precision in (11, 12, 255):
        add('precision', HALF, {'precision': precision}, [ONE], ONE)
    return made


def reach_places():
    """Stray bits in the list at each of its places, in the wanted total, whose place is the list's length, and in both."""
    made = []
    add = lambda note, f, values, wanted: made.append(Reach(note, f, {}, values, wanted))
    for i in range(12):
        far = [ONE] * i + [ONE + (1 << (16, 40, 63)[i % 3])] + [ONE] * (11 - i)
        add('stray bits', HALF, far, ONE)
        if i % 2:
            add('both', HALF, far[:i + 1 + i // 2 % 2 * (11 - i)], STRAY)
    for n in range(13):
        add('the wanted total', HALF, [ONE] * n, ONE + (1 << (16, 40, 63)[n % 3]))
    add('stray bits', HALF, [ONE, 1 << 63, ONE, STRAY], ONE)
    add('both', HALF, [STRAY] * 12, STRAY)
    for w, place in ((63, 1), (64, 0)):
        # the bit 63 is stray in one of these, and a sign in the other
        add('the highest bit', (0, 2, w), [0, 1 << 63], 0)
        add('the highest bit', (0, 2, w), [0], 1 << 63)
        assert [reach.place for reach in made[-2:]] == [place, place]
    add('four bits', (0, 2, 4), [0, 7], 16)
    add('four bits', (0, 2, 4), [0, 16], 7)
    return made


def reach_not_finite():
    """NaNs and infinities, in the list and wanted; and totals right within and beyond what the numbers reach."""
    made = []
    add = lambda note, c, values, wanted: made.append(Reach(note, HALF, c, values, wanted))
    for b in (0x7c00, 0xfc00, 0x7c01, 0x7e00, 0xfdff, 0xffff):
        add('a value not finite', {}, [ONE, b], ONE)
        add('the only value', {}, [b], 0)
        add('total not finite', {}, [ONE], b)
        add('both not finite', {'saturate': 1}, [b], b)
    for mode in range(8):
        # with the largest number the sum is 0, and with no number more
        minus = 0x8000 * (mode % 2)
        add('just reached', {'rounding': mode}, [0xfbff - minus], minus)
        add('just missed', {'rounding': mode}, [0xfbff - minus], minus + 1)
        assert [reach.refusal for reach in made[-2:]] == [0, 14]
    return made + [reach_spoiled({15}, turn) for turn in range(4)]


def reach_refusals():
    """Each two, three and more numbers that hold together; 6 is left to longer lists."""
    made = []
    for n in range(2, 7):
        for numbers in combinations((2, 3, 4, 7, 15, 14), n):
            made += [reach_spoiled(set(numbers), (len(made) + turn) % 4) for turn in range(2 if n == 2 else 1)]
    return reach_alone() + reach_places() + reach_not_finite() + made


def reaches():
    draw = Draw(12)
    made = (reach_examples() + reach_roundings() + reach_overflows() + reach_precisions() + reach_zeros() + reach_zero_answers() + reach_biases(draw)
            + reach_small(draw) + reach_formats(draw) + reach_drawn(draw) + reach_orders(draw) + reach_careers() + reach_refusals())
    # bytes behind the values, and buffers of other lengths
    for i, reach in enumerate(made):
        reach.more, reach.first = i % 8, 37 * i % 256
        if reach.room == REACH_BUFFER:
            reach.room = REACH_ANSWER + i % 9
    return made


def reaches_asked(binary):
    """Holds the answers to the oracle: the plain sum with the number found is the wanted total, and with the next number below it is less; where no number
    does it, one gives more, or there is none above, and the next one below gives less. How many calls there are of either sort of which it knows the format."""
    known = set(known_formats(binary))
    calls = [reach for reach in reaches() if reach.refusal in (0, 14) and reach.numbers[:3] + reach.numbers[4:] * reach.numbers[3] in known]
    sums = [(reach, k) for reach in calls for k in (reach.above - 1, reach.above) if abs(k) <= last_place(reach.format())]
    for (reach, k), answer in zip(sums, asked(binary, [reach.case(k) for reach, k in sums])):
        f = reach.format()
        found, target = place_of(f, int(answer.split()[0], 16)), place_of(f, reach.wanted)
        right = found < target if k < reach.above else found == target if reach.number is not None else found > target
        if not right or reach.number is not None and place_of(f, reach.number) != reach.above:
            sys.exit('%s: %s\n  oracle %s, wanted %x, model %s' % (reach.note, reach.case(k).line(), answer, reach.wanted, reach.number))
    return sum(not reach.refusal for reach in calls), sum(reach.refusal == 14 for reach in calls)


def cover_reaches(every):
    given, none = [reach for reach in every if not reach.refusal], [reach for reach in every if reach.refusal == 14]
    print('%5d  contributions, %d of them found; %d wanted totals that no number reaches' % (len(every), len(given), len(none)))
    mode, both = lambda reach: reach.c['rounding'], given + none
    sign = lambda n: (n > 0) - (n < 0)
    wanted = lambda reach: place_of(reach.format(), reach.wanted)
    place = lambda reach: place_of(reach.format(), reach.number)
    fewest('rounding, sign of the wanted total (minus, 0, plus)', given, lambda reach: (mode(reach), sign(wanted(reach))), range(8), (-1, 0, 1))
    fewest('no number, by rounding', none, lambda reach: (mode(reach),), range(8))
    fewest('no number: all give less; one gives more', none, lambda reach: (reach.above <= last_place(reach.format()),), (False, True))

    def size(f, k):
        k = abs(k)
        return 0 if k == 0 else 4 if k == last_place(f) else 1 if k < 1 << f.fraction else 3 if k % (1 << f.fraction) == 0 else 2
    fewest('size of the wanted total (0, subnormal, normal, a power of two, the largest), by rounding', given,
           lambda reach: (size(reach.format(), wanted(reach)), mode(reach)), range(5), range(8))
    fewest('size of the number', given, lambda reach: (size(reach.format(), place(reach)),), range(5))
    fewest('zero wanted, by its sign and rounding', [reach for reach in given if wanted(reach) == 0],
           lambda reach: (reach.wanted > 0, mode(reach)), (False, True), range(8))
    fewest('zero is the answer, by rounding', [reach for reach in given if place(reach) == 0], lambda reach: (mode(reach),), range(8))
    fewest('the least finite number is the answer, by saturation', [reach for reach in given if place(reach) == -last_place(reach.format())],
           lambda reach: (reach.c['saturate'],), range(2))
    exact = lambda reach: Case(reach.format(), reach.c, [*reach.values, reach.number])
    fewest('side of the sum with the number', given, lambda reach: (exact(reach).leans,), range(3))
    fewest('passes of that sum, 1 to 3', given, lambda reach: (exact(reach).passes,), range(1, 4))
    overflows = [reach for reach in given if exact(reach).flags & OVERFLOW]
    fewest('overflow of that sum, saturated or not', overflows, lambda reach: (reach.c['saturate'],), range(2))
    fewest('precision below p, found or not, by rounding', [reach for reach in both if 0 < reach.c['precision'] < reach.format().p],
           lambda reach: (reach.refusal, mode(reach)), (0, 14), range(8))
    fewest('more digits than the precision, found or not', [reach for reach in given if reach.c['precision']],
           lambda reach: (reach.format().decode(reach.number)[0] == 'number' and digits_of(reach) > reach.c['precision'],), (False, True))
    fewest('E', both, lambda reach: (reach.numbers[1],), range(2, 29))
    fewest('a bias named, found or not', [reach for reach in both if reach.numbers[3]], lambda reach: (reach.refusal,), (0, 14))
    fewest('number of values', both, lambda reach: (len(reach.values),), range(13))
    refused = [reach for reach in every if reach.holds]
    order = CONTRIBUTION_ORDER[:3] + CONTRIBUTION_ORDER[4:]
    fewest('one refusal alone', [reach for reach in refused if len(reach.holds) == 1], lambda reach: tuple(reach.holds), order)
    fewest('two refusals at once, by pair', [reach for reach in refused if len(reach.holds) == 2], lambda reach: (tuple(sorted(reach.holds)),),
           map(tuple, map(sorted, combinations(order, 2))))
    fewest('three, four, five, six at once', refused, lambda reach: (len(reach.holds),), range(3, 7))
    fewest('place of a stray bit', [reach for reach in every if reach.refusal == 7], lambda reach: (reach.place,), range(13))


def digits_of(reach):
    """How many digits the number found has."""
    m = reach.format().decode(reach.number)[2]
    return m.bit_length() - (m & -m).bit_length() + 1


def main():
    command, words = sys.argv[1], sys.argv[2:]
    if command == 'write' and words[:1] == ['--oracle']:
        write(words[1])
    elif command == 'check':
        check()
    elif command == 'cover':
        cover()
    elif command == 'draw' and words[:1] == ['--oracle']:
        draw_more(words[1], int(words[2]), int(words[3]))
    else:
        sys.exit(__doc__)


if __name__ == '__main__':
    main()
