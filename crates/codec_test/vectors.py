#!/usr/bin/env python3
"""Expectations for the program `codec_test`, from the text of the specification alone.

    vectors.py write FILE            writes the program's input
    vectors.py oracle BINARY SEED N  compares this model with the Rust oracle, N random lists

A format is modelled as the table of what its encodings stand for, as exact
fractions. Encoding a result looks it up there, and the largest number is the
largest of the table, so nothing here computes an exponent field or a
significand of a result. Rounding is done on fractions.

The file has five parts. Its first line has the number of rows of each, in
four hex digits. All rows of a part have one length; every number is in hex.

d  KEW bb ttssmm oo ee     the encoding bb: its tag, shift and significand (or
                           payload), its tag as an operand with denormals-are-
                           zero, and what encoding the decoded value gives.
                           tag: class (0 zero, 1 finite, 2 infinity, 3 NaN)
                           + 4 sign + 8 signaling + 16 subnormal + 32 plain
n  KEW aa bb rr*8          the NaN of the list aa, bb, by the four rules, with
                           a default NaN of either sign
r  KEWqsi gggg pppp high low rrff*128
                           a value to round: precision q, sticky bit s, the
                           grid's position, the value's position, and its two
                           words, which stand at the word i. Result and flags
                           of the setting j: mode j % 8, tininess j / 8 % 2,
                           flush j / 16 % 2, saturate j / 32 % 2, sign j / 64
f  k ee ww bias range depth origin origin grid grid
                           what follows from a format's widths
s  k ee ww rtndfzs qq z a  a format, the settings in the specification's order and a
                           precision; whether there are positive zeros (1) and
                           negative ones (2). a: 1 the format is valid, 2 so
                           are the settings, 4 the sum of these zeros is -0,
                           8 terms that cancel give -0

Behind them stand five parts more, headed in the same way: the negative
control, rows of each kind with one answer changed.
"""

import random
import subprocess
import sys
from fractions import Fraction

IEEE, NOINF, FNUZ, FINITE = range(4)
KINDS = (IEEE, NOINF, FNUZ, FINITE)
ROOM = 1024
# those pairs of E and W that the oracle's small set has too
TINY = ((2, 4), (2, 5), (2, 6), (3, 5), (3, 6), (4, 6), (4, 8), (5, 8))


def power(n):
    return Fraction(2) ** n


class Format:
    def __init__(self, kind, e, w):
        self.kind, self.e, self.w = kind, e, w
        self.p = w - e
        self.bias = 2 ** (e - 1) - (0 if kind == FNUZ else 1)
        self.emin = 1 - self.bias
        self.emax = 2 ** e - (2 if kind == IEEE else 1) - self.bias
        self.least = power(self.emin - self.p + 1)

    def fill(self):
        """What each encoding stands for, the encoding of each number, and the largest number of at most q digits."""
        self.table = [self.read(b) for b in range(2 ** self.w)]
        self.bits = {}
        for b, v in enumerate(self.table):
            if v[0] == 'number':
                self.bits[v[1], v[2]] = b
        self.largest = {q: self.find_largest(q) for q in range(1, self.p + 1)}
        return self

    def read(self, b):
        """('zero', sign), ('number', sign, value), ('infinity', sign) or ('nan', sign, signaling, payload)."""
        text = format(b, '0%db' % self.w)
        sign, field, fraction = text[0] == '1', text[1:1 + self.e], text[1 + self.e:]
        if self.kind == IEEE and '0' not in field:
            if '1' not in fraction:
                return 'infinity', sign
            return 'nan', sign, fraction[0] == '0', int('0' + fraction[1:], 2)
        if self.kind == NOINF and '0' not in field + fraction:
            return 'nan', sign, False, 0
        if self.kind == FNUZ and sign and '1' not in text[1:]:
            return 'nan', sign, False, 0
        below = Fraction(int(fraction, 2), 2 ** len(fraction))
        if '1' not in field:
            value = below * power(self.emin)
        else:
            value = (1 + below) * power(int(field, 2) - self.bias)
        return ('number', sign, value) if value else ('zero', sign)

    def subnormal(self, v):
        return v[0] == 'number' and v[2] < power(self.emin)

    def write(self, v):
        top = 2 ** (self.w - 1)
        if v[0] == 'number':
            return self.bits[v[1], v[2]]
        if v[0] == 'zero':
            return top if v[1] and self.kind != FNUZ else 0
        want = [b for b, x in enumerate(self.table) if x == v]
        if want:
            return want[0]
        assert v[0] == 'nan'
        # a NaN that the format lacks: the format's own, of the sign if it has one of that sign; none at all is +0
        own = [b for b, x in enumerate(self.table) if x[0] == 'nan']
        signed = [b for b in own if self.table[b][1] == v[1]]
        return (signed or own or [0])[0]

    def find_largest(self, q):
        found = Fraction(0)
        for v in self.table:
            if v[0] == 'number' and v[2] > found:
                unit = power(exponent(v[2]) - q + 1)
                if (v[2] / unit).denominator == 1:
                    found = v[2]
        return found


def exponent(x):
    """The position of the highest bit."""
    k = 0
    while power(k) > x:
        k -= 1
    while power(k + 1) <= x:
        k += 1
    return k


def multiple(x, unit, mode, negative):
    """x rounded to a multiple of the unit, by the mode."""
    below = x // unit
    rest = x / unit - below
    half = Fraction(1, 2)
    if mode == 0:
        up = rest > half or (rest == half and below % 2 == 1)
    elif mode == 1:
        up = rest >= half
    elif mode == 2:
        up = rest > half
    elif mode == 3:
        up = rest > 0 and not negative
    elif mode == 4:
        up = rest > 0 and negative
    elif mode == 5:
        up = False
    elif mode == 6:
        up = rest > 0
    else:
        up = rest > 0 and below % 2 == 0
    return (below + up) * unit


def rounded(f, x, negative, mode, tininess, flush, saturate, precision):
    """The rounding of a non-zero sum of magnitude x: its encoding and flags."""
    q = precision or f.p
    k = max(f.emin, exponent(x))
    y = multiple(x, power(k - q + 1), mode, negative)
    unlimited = multiple(x, power(exponent(x) - q + 1), mode, negative)
    tiny = (unlimited if tininess else x) < power(f.emin)
    if tiny and flush:
        return f.write(('zero', negative)), 8 + 16 + 32
    if y > f.largest[q]:
        to_infinity = mode in (0, 1, 2, 6) or mode == (4 if negative else 3)
        if to_infinity and not saturate:
            if f.kind == IEEE:
                return f.write(('infinity', negative)), 4 + 16 + 64
            if f.kind != FINITE:
                return f.write(('nan', negative, False, 0)), 4 + 16
        return f.write(('number', negative, f.largest[q])), 4 + 16
    flags = 32 * tiny + 16 * (y != x) + 8 * (tiny and y != x) + 64 * (y > x)
    return f.write(('number', negative, y) if y else ('zero', negative)), flags


def chosen(f, values, rule, negative):
    """The NaN of a list of values."""
    if rule == 3:
        return f.write(('nan', negative, False, 0))
    nans = [v for v in values if v[0] == 'nan']
    pick = nans[0]
    for v in nans[1:]:
        if rule == 0:
            change = v[2] and not pick[2]
        elif rule == 1:
            change = False
        elif v[2] != pick[2]:
            change = pick[2]
        elif v[3] != pick[3]:
            change = v[3] > pick[3]
        else:
            change = not (v[1] and not pick[1])
        if change:
            pick = v
    return f.write(('nan', pick[1], False, pick[3]))


# ---- rows

def tag(f, b, v):
    kind = {'zero': 0, 'number': 1, 'infinity': 2, 'nan': 3}[v[0]]
    field = format(b, '0%db' % f.w)[1:1 + f.e]
    return kind + 4 * v[1] + 8 * (v[0] == 'nan' and v[2]) + 16 * f.subnormal(f.table[b]) + 32 * ('1' in field and '0' in field)


def decode_row(f, b):
    v = f.table[b]
    shift = number = 0
    if v[0] == 'number':
        shift = max(0, exponent(v[2]) - f.emin)
        number = v[2] / (f.least * 2 ** shift)
        assert number.denominator == 1
    if v[0] == 'nan':
        number = v[3]
    operand = ('zero', v[1]) if f.subnormal(v) else v
    return '%x%x%x %02x %02x%02x%02x %02x %02x' % (f.kind, f.e, f.w, b, tag(f, b, v), shift, int(number), tag(f, b, operand), f.write(v))


def nan_rows(f):
    nans = [b for b, v in enumerate(f.table) if v[0] == 'nan']
    for a in nans:
        for b in nans:
            pair = [f.table[a], f.table[b]]
            yield '%x%x%x %02x %02x ' % (f.kind, f.e, f.w, a, b) + ''.join(
                '%02x' % chosen(f, pair, rule, negative) for negative in (False, True) for rule in range(4))


def settings():
    for j in range(128):
        yield j % 8, j // 8 % 2, j // 16 % 2, j // 32 % 2, bool(j // 64)


def round_row(f, precision, significand, position, sticky, index, grid):
    """significand * 2^(position - grid) of the least number, and with a sticky bit some more."""
    unit = f.least * power(position - grid)
    answers = []
    for part in (Fraction(1, 2), Fraction(1, 1000003)) if sticky else (Fraction(0),):
        x = (significand + part) * unit
        answers.append(''.join('%02x%02x' % rounded(f, x, negative, mode, tininess, flush, saturate, precision)
                               for mode, tininess, flush, saturate, negative in settings()))
    assert len(set(answers)) == 1
    words = significand >> 64 * index
    assert words << 64 * index == significand and words < 2 ** 128
    return '%x%x%x%x%x%x %04x %04x %016x %016x %s' % (
        f.kind, f.e, f.w, precision, sticky, index, grid, position, words >> 64, words % 2 ** 64, answers[0])


def round_rows(rng, f, count):
    numbers = sorted(v[2] for v in f.table if v[0] == 'number' and not v[1])
    for n in range(count):
        precision = rng.choice((0, 0, rng.randint(1, f.p)))
        q = precision or f.p
        # a number, the middle of two neighbours, the ends of the range, or anything
        where = n % 6
        if where < 3:
            x = rng.choice(numbers)
            if where:
                x += power(max(f.emin, exponent(x)) - q + 1) * Fraction(rng.choice((1, 2, 3)), 2)
        elif where == 3:
            x = power(f.emin) - f.least * Fraction(rng.randint(0, 2 ** 6), 2 ** 6)
        elif where == 4:
            x = max(numbers) + power(f.emax - f.p) * Fraction(rng.randint(0, 16), 8)
        else:
            x = rng.choice(numbers) * Fraction(rng.randint(1, 2 ** 20), 2 ** 18)
        if not x:
            x = f.least * Fraction(1, 4)
        # as a whole number of 2^-low of the least number, a little below x or at x, with or without a sticky bit
        low = rng.choice((8, 20, 40))
        significand = int(x / f.least * 2 ** low)
        sticky = rng.random() < 0.5
        if sticky:
            significand -= rng.random() < 0.5
            while significand.bit_length() < f.p + 2:
                significand, low = 2 * significand + 1, low + 1
        significand = max(1, significand)
        index = rng.choice((0, 0, 1, 2, 9, 10))
        grid = rng.choice((ROOM, ROOM + f.bias + f.p - 2))
        yield round_row(f, precision, significand << 64 * index, grid - low - 64 * index, sticky, index, grid)


def format_row(kind, e, w):
    f = Format(kind, e, w)
    depth = -(f.emin - f.p + 1)
    return '%x %02x %02x' % (kind, e, w) + ''.join(
        ' %08x' % n for n in (f.bias, f.emax - f.emin, depth, ROOM + depth, ROOM + 2 * depth, ROOM, ROOM + depth))


def settings_row(kind, e, w, numbers, precision, zeros):
    rounding, tininess, rule, sign, flush, daz, saturate = numbers
    valid = kind in KINDS and 2 <= e <= 28 and e + 2 <= w <= 64
    ranges = rounding in range(8) and rule in range(4) and all(n in (0, 1) for n in (tininess, sign, flush, daz, saturate))
    signs = {0: False, 1: False, 2: True, 3: rounding == 4}
    answer = valid + 2 * (valid and ranges and precision <= w - e) + 4 * signs[zeros] + 8 * (rounding == 4)
    return '%x %02x %02x ' % (kind, e, w) + ''.join('%x' % n for n in numbers) + ' %02x %x %x' % (precision, zeros, answer)


def settings_rows(rng, count):
    most = (7, 1, 3, 1, 1, 1, 1)
    for _ in range(count):
        e = rng.choice((1, 2, 3, 11, 27, 28, 29))
        w = rng.choice((e + 1, e + 2, 32, 63, 64, 65))
        numbers = [rng.randint(0, n) for n in most]
        if rng.random() < 0.5:
            i = rng.randrange(7)
            numbers[i] = most[i] + rng.randint(0, 1)
        precision = rng.choice((0, max(0, w - e), max(0, w - e) + 1))
        yield settings_row(rng.choice((0, 1, 2, 3, 3, 4)), e, w, numbers, precision, rng.randrange(4))


def spoilt(row, column, mask=1):
    """The row with one digit changed."""
    return row[:column] + '%x' % (int(row[column], 16) ^ mask) + row[column + 1:]


def controls(parts):
    """The first row of each part with one of its answers changed: each answer in turn, and of the 128 roundings the first and the last, result and flags."""
    decode, nans, rounds, widths, offered = (part[0] for part in parts)
    return ([spoilt(decode, column) for column in (8, 10, 12, 15, 18)],
            [spoilt(nans, 11 + 2 * j) for j in range(8)],
            [spoilt(rounds, column + 4 * j) for j in (0, 127) for column in (52, 54)],
            [spoilt(widths, 15 + 9 * j) for j in range(7)],
            [spoilt(offered, 21, mask) for mask in (1, 2, 4, 8)])


def write(path):
    rng = random.Random(20)
    formats = [Format(kind, e, w).fill() for kind in KINDS for e, w in TINY]
    decode = [decode_row(f, b) for f in formats for b in range(2 ** f.w)]
    nans = [row for f in formats if (f.e, f.w) != (4, 8) for row in nan_rows(f)]
    rounds = [row for f in formats for row in round_rows(rng, f, 12)]
    widths = [format_row(kind, e, w) for kind in KINDS for e, w in TINY + ((5, 16), (8, 16), (8, 32), (11, 64), (15, 64), (28, 30), (28, 64))]
    offered = list(settings_rows(rng, 400))
    parts = (decode, nans, rounds, widths, offered)
    for part in parts:
        assert len(set(len(row) for row in part)) == 1
    with open(path, 'w') as out:
        for written in (parts, controls(parts)):
            out.write(' '.join('%04x' % len(part) for part in written) + '\n')
            for part in written:
                out.write(''.join(row + '\n' for row in part))
    print('rows', [len(part) for part in parts], 'of', [len(part[0]) + 1 for part in parts], 'bytes; checks',
          5 * len(decode) + 8 * len(nans) + 128 * len(rounds) + 7 * len(widths) + 4 * len(offered))


# ---- against the Rust

def expected(f, op, summand, lists, rule, default, daz, s):
    """Result and flags of a sum or a dot whose terms are numbers, zeros and NaNs, by the specification's text; None for what is not modelled."""
    mode, tininess, flush, saturate, precision = s
    flags = 0
    values = []
    for b in lists:
        v = f.table[b]
        if f.subnormal(v):
            flags |= 128
            if daz:
                v = 'zero', v[1]
        values.append(v)
    if any(v[0] == 'nan' for v in values):
        if any(v[0] == 'infinity' for v in values):
            return None
        order = values
        if op == 'dot':
            order = [v for pair in zip(values[:len(values) // 2], values[len(values) // 2:]) for v in pair]
        return chosen(f, order, rule, default), flags | any(v[0] == 'nan' and v[2] for v in values)
    if any(v[0] == 'infinity' for v in values):
        return None
    def number(v):
        return (-v[2] if v[1] else v[2]) if v[0] == 'number' else Fraction(0)
    if op == 'dot':
        half = len(values) // 2
        terms = [number(a) * number(b) for a, b in zip(values[:half], values[half:])]
    elif summand:
        terms = [abs(number(v)) ** summand for v in values]
    else:
        terms = [number(v) for v in values]
    total = sum(terms)
    if not total:
        return None
    result, more = rounded(f, abs(total), total < 0, mode, tininess, flush, saturate, precision)
    return result, flags | more


def oracle(binary, seed, count):
    rng = random.Random(seed)
    formats = [Format(kind, e, w).fill() for kind in KINDS for e, w in TINY]
    lines, wants = [], []

    def case(f, op, summand, lists, rule, default, daz, s):
        want = expected(f, op, summand, lists, rule, default, daz, s)
        if want is not None:
            n = len(lists) // 2 if op == 'dot' else len(lists)
            lines.append(' '.join([op] + [str(x) for x in (f.kind, f.e, f.w, s[0], s[1], rule, int(default), s[2], int(daz), s[3], s[4], summand, n)]
                                  + ['%x' % b for b in lists]))
            wants.append('%x %d' % want)
    for f in formats:
        # a list of one gives what is decoded back, with its flags
        for b in range(2 ** f.w):
            for daz in (False, True):
                case(f, 'sum', 0, [b], 0, False, daz, (0, 1, 0, 0, 0))
        nans = [b for b, v in enumerate(f.table) if v[0] == 'nan'][:12]
        for a in nans:
            for b in nans:
                for rule in range(4):
                    case(f, 'sum', 0, [a, b], rule, bool(rng.getrandbits(1)), False, (0, 1, 0, 0, 0))
    for _ in range(count):
        f = rng.choice(formats)
        op = rng.choice(('sum', 'dot'))
        n = rng.randint(1, 5)
        lists = [rng.randrange(2 ** f.w) for _ in range(2 * n if op == 'dot' else n)]
        s = rng.randrange(8), rng.randrange(2), rng.randrange(2), rng.randrange(2), rng.choice((0, rng.randint(1, f.p)))
        case(f, op, rng.randrange(3), lists, rng.randrange(4), bool(rng.getrandbits(1)), bool(rng.getrandbits(1)), s)
    got = subprocess.run([binary], input='\n'.join(lines) + '\n', text=True, capture_output=True, check=True).stdout.split('\n')
    wrong = [(line, want, answer) for line, want, answer in zip(lines, wants, got) if want != answer]
    for line, want, answer in wrong[:10]:
        print(line, '| want', want, '| got', answer)
    print(len(lines), 'cases,', len(wrong), 'differ')
    return not wrong


if __name__ == '__main__':
    if sys.argv[1] == 'write':
        write(sys.argv[2])
    elif not oracle(sys.argv[2], int(sys.argv[3]), int(sys.argv[4])):
        sys.exit(1)
