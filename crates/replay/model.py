"""What the specification says of a total, and of which way its result leans, of a named bias, of a list's pence, of a table, of amounts known
within a range, of career pages, of the most elements of a list, of values of ten bytes, of one total in several formats, of a total within an allowance of
passes and of the contribution that reaches a total, in whole numbers of any length.

Written from the text of the specification, and from the Rust's where that
names a function of it (the choice among NaNs, overflow, the largest number).
A sum is added up exactly, as a whole number times a power of two, and rounded
once. The chain of passes is walked beside that, for the passes and the last
edge alone; the result does not depend on the walk. A range's totals are found
among the doubles by their size, with fractions and no rounding at all. A
page's summaries are those of Python's floats, as fractions; a page is read
field by field, and held to the page that is written of its values. A target's
result is the list's exact sum rounded in the target's format, and by way of no
other. What an allowance shows is the pass of that number, and it is held to the
exact sum. A contribution is found by its size, as what is missing up to the sums
that are rounded to the wanted total, and in small formats among all numbers.
"""

import math
import struct
from fractions import Fraction
from functools import lru_cache

IEEE, NOINF, FNUZ, FINITE = range(4)
EVEN, TIES_AWAY, TIES_TO_ZERO, UP, DOWN, TO_ZERO, AWAY, TO_ODD = range(8)
VALUE, MAGNITUDE, SQUARE = range(3)
INVALID, OVERFLOW, UNDERFLOW, INEXACT, TINY, RAISED, SUBNORMAL = 1, 4, 8, 16, 32, 64, 128
SETTINGS = ('rounding', 'tininess', 'nan', 'negative', 'flush', 'daz', 'saturate', 'precision')
RANGES = (8, 2, 4, 2, 2, 2, 2)
PLAIN = dict.fromkeys(SETTINGS, 0)
LIMIT = 268435456
LARGEST_PENCE = 9223372036854775807
LARGEST_BIAS = 268435456


# ---- formats

class Format:
    """A format. It may name a bias, else it has that of its kind."""

    def __init__(self, kind, e, w, bias=None):
        self.kind, self.e, self.w, self.named = kind, e, w, bias
        self.fraction = w - e - 1
        self.p = w - e
        self.bias = own_bias(kind, e) if bias is None else bias
        self.emin = 1 - self.bias
        self.emax = 2 ** e - (2 if kind == IEEE else 1) - self.bias
        self.ones = 2 ** e - 1
        self.low = self.emin - self.p + 1
        self.quiet = 1 << (self.fraction - 1)
        self.sign = 1 << (w - 1)

    def decode(self, b):
        """('nan', negative, signaling, payload), ('infinity', negative),
        ('zero', negative) or ('number', negative, significand, position)."""
        negative, field, rest = b >> self.w - 1, b >> self.fraction & self.ones, b % (1 << self.fraction)
        if self.kind == IEEE and field == self.ones:
            if rest == 0:
                return 'infinity', negative
            return 'nan', negative, rest < self.quiet, rest % self.quiet
        if self.kind == NOINF and field == self.ones and rest == (1 << self.fraction) - 1:
            return 'nan', negative, False, 0
        if self.kind == FNUZ and b == self.sign:
            return 'nan', 1, False, 0
        if field == 0:
            return ('number', negative, rest, self.low) if rest else ('zero', negative)
        return 'number', negative, rest + (1 << self.fraction), self.low + field - 1

    def is_subnormal(self, v):
        return v[0] == 'number' and v[2] >> self.fraction == 0

    def normal(self, negative, field, rest):
        return self.sign * negative + (field << self.fraction) + rest

    def zero(self, negative):
        return self.sign * (negative and self.kind != FNUZ)

    def infinity(self, negative):
        return self.sign * negative + (self.ones << self.fraction)

    def nan(self, negative, payload):
        if self.kind == IEEE:
            return self.sign * negative + (self.ones << self.fraction) + self.quiet + payload
        if self.kind == NOINF:
            return self.sign * negative + self.sign - 1
        assert self.kind == FNUZ
        return self.sign

    def number(self, negative, m, x):
        """Encodes m * 2^x, which the format has."""
        while m % 2 == 0 and x < self.low:
            m, x = m // 2, x + 1
        while x > self.low and m < 1 << self.fraction:
            m, x = 2 * m, x - 1
        while m >= 1 << self.p:
            assert m % 2 == 0
            m, x = m // 2, x + 1
        assert x >= self.low
        b = self.sign * negative + (x - self.low << self.fraction) + m
        assert self.decode(b) == ('number', negative, m, x)
        return b

    def largest(self, negative, q):
        m = (1 << q) - 1
        if self.kind == NOINF and q == self.p:
            m -= 1
        return self.number(negative, m, self.emax - q + 1)


class Extended:
    """Values of ten bytes: a sign, an exponent field of 15 bits and a significand of 64, whose leading bit is written out."""

    # infinities, emax and overflow are Ieee's
    kind, e, p, fraction, bias = IEEE, 15, 64, 63, 16383
    emin, emax, ones = 1 - bias, bias, 2 ** e - 1
    low = emin - fraction
    sign, leading, quiet = 1 << 79, 1 << 63, 1 << 62

    def decode(self, b):
        """As of a format, or ('unsupported',): a field above 0 over a leading bit of 0. A number tells whether its field is 0."""
        negative, field, m = b >> 79, b >> 64 & self.ones, b % (1 << 64)
        if field and m < self.leading:
            return 'unsupported',
        if field == self.ones:
            rest = m - self.leading
            return ('nan', negative, rest < self.quiet, rest % self.quiet) if rest else ('infinity', negative)
        if m == 0:
            return 'zero', negative
        return 'number', negative, m, self.low + max(field, 1) - 1, field == 0

    def is_subnormal(self, v):
        """By the field: a leading bit over a field of 0 does not make it a normal number."""
        return v[0] == 'number' and v[4]

    def normal(self, negative, field, rest):
        return self.sign * negative + (field << 64) + self.leading + rest

    def zero(self, negative):
        return self.sign * negative

    def infinity(self, negative):
        return self.sign * negative + (self.ones << 64) + self.leading

    def nan(self, negative, payload):
        return self.infinity(negative) + self.quiet + payload

    def number(self, negative, m, x):
        """Encodes m * 2^x, which has at most 64 digits and none below the least. A leading bit stands over a field above 0 alone."""
        value = Fraction(m) * Fraction(2) ** x
        field = max(x + m.bit_length() - 1 - self.emin + 1, 0)
        count = value / Fraction(2) ** (self.low + max(field, 1) - 1)
        assert count.denominator == 1 and count < 2 ** 64 and field < self.ones
        b = self.sign * negative + (field << 64) + int(count)
        v = self.decode(b)
        assert v[:2] == ('number', negative) and v[2] * Fraction(2) ** v[3] == value
        return b

    def largest(self, negative, q):
        return self.number(negative, (1 << q) - 1, self.emax - q + 1)


def own_bias(kind, e):
    return 2 ** (e - 1) - (0 if kind == FNUZ else 1)


def valid_format(kind, e, w, bias=None):
    return kind <= 3 and 2 <= e <= 28 and e + 2 <= w <= 64 and abs(bias or 0) <= LARGEST_BIAS


# ---- one rounding

def goes_up(mode, negative, odd, side):
    """Whether a magnitude goes up to the next multiple. The side says what
    lies above the lower one: nothing, or less, as much or more than half."""
    if side == 'exact':
        return False
    if mode == EVEN:
        return side == 'above' or side == 'on' and odd
    if mode == TIES_AWAY:
        return side != 'below'
    if mode == TIES_TO_ZERO:
        return side == 'above'
    if mode == UP:
        return not negative
    if mode == DOWN:
        return bool(negative)
    if mode == TO_ODD:
        return not odd
    return mode == AWAY


def multiple(mode, negative, m, x, unit):
    """m * 2^x as a count of 2^unit, whether that went up, and the side."""
    if x >= unit:
        return m << (x - unit), False, 'exact'
    count = m >> (unit - x)
    rest, half = m - (count << (unit - x)), 1 << (unit - x - 1)
    side = 'exact' if rest == 0 else 'below' if rest < half else 'on' if rest == half else 'above'
    up = goes_up(mode, negative, count % 2 == 1, side)
    return count + up, up, side + ' odd' * (side == 'on' and count % 2 == 1)


def round_once(f, c, negative, m, x):
    """The encoded result, the flags and the side of m * 2^x."""
    mode = c['rounding']
    q = c['precision'] or f.p
    top = x + m.bit_length() - 1
    unit = max(f.emin, top) - q + 1
    count, up, side = multiple(mode, negative, m, x, unit)
    inexact = side != 'exact'
    if c['tininess'] == 0:
        tiny = top < f.emin
    else:
        free, _, _ = multiple(mode, negative, m, x, top - q + 1)
        tiny = top - q + 1 + free.bit_length() - 1 < f.emin
    if tiny and c['flush']:
        return f.zero(negative), UNDERFLOW + INEXACT + TINY, side
    flags = TINY * tiny + INEXACT * inexact + UNDERFLOW * (tiny and inexact)
    if count == 0:
        return f.zero(negative), flags, side
    at = unit + count.bit_length() - 1
    # NoInf's NaN takes the place of the number with every digit set
    taken = f.kind == NOINF and q == f.p and at == f.emax and count == (1 << f.p) - 1
    if at > f.emax or taken:
        outward = mode in (EVEN, TIES_AWAY, TIES_TO_ZERO, AWAY) or mode == (DOWN if negative else UP)
        if not outward or c['saturate'] or f.kind == FINITE:
            return f.largest(negative, q), OVERFLOW + INEXACT, side
        if f.kind == IEEE:
            return f.infinity(negative), OVERFLOW + INEXACT + RAISED, side
        return f.nan(negative, 0), OVERFLOW + INEXACT, side
    return f.number(negative, count, unit), flags + RAISED * up, side


# ---- which way a result leans

EQUAL, BELOW, ABOVE, NO_COMPARISON = range(4)


def leaning(f, result, total, x):
    """Where the result, decoded, lies beside total * 2^x."""
    v = f.decode(result)
    if v[0] in ('nan', 'infinity'):
        return NO_COMPARISON
    m, at = (-v[2] if v[1] else v[2], v[3]) if v[0] == 'number' else (0, x)
    low = min(at, x)
    mine, exact = m << (at - low), total << (x - low)
    return EQUAL if mine == exact else BELOW if mine < exact else ABOVE


# ---- the passes

def part(m, x, w):
    """m * 2^x in units of 2^w, cut toward zero, modulo 2^768, and the lost bit."""
    if x >= w:
        return m << min(x - w, 768), None
    if m.bit_length() <= w - x:
        return 0, x + m.bit_length() - 1
    units = m >> (w - x)
    return units, None if units << (w - x) == m else w - 1


def passes_of(p, terms, top):
    """The passes, one by one: the edge, the boundary that the pass is compared
    against, a whole number with a sign and the position of its unit, or None,
    S, and of the last pass how the chain ends: the sum is zero or exact, or
    inexact and far from what the rounding asks, or it lies below the boundary,
    on it or above it, by magnitude."""
    w, boundary = top - 702, None
    while True:
        s, lost = 0, []
        for negative, m, x in terms:
            units, bit = part(m, x, w)
            s += -units if negative else units
            if bit is not None:
                lost.append(bit)
        if boundary:
            whole, at = boundary
            s -= whole << min(at - w, 768)
        s = (s + 2 ** 767) % 2 ** 768 - 2 ** 767
        n = abs(s).bit_length()
        if boundary is None:
            if not lost:
                yield w, boundary, s, 'exact' if s else 'zero'
                return
            if n >= p + 70:
                r = n - p - 1
                whole, d = divmod(abs(s), 1 << r)
                if 2 ** 65 <= d <= 2 ** r - 2 ** 65:
                    yield w, boundary, s, 'inexact'
                    return
                yield w, boundary, s, ''
                whole += d > 2 ** r - 2 ** 65
                boundary = (-whole if s < 0 else whole), w + r
                w -= 701
                continue
        elif not lost or n >= 66:
            yield w, boundary, s, 'on' if s == 0 else 'above' if (s > 0) == (boundary[0] > 0) else 'below'
            return
        yield w, boundary, s, ''
        w = max([w + n] + [bit + 65 for bit in lost]) - 766


@lru_cache(maxsize=1)
def all_passes(p, terms, top):
    """All of them, walked once for calls in a row over the same terms."""
    return list(passes_of(p, terms, top))


def chain(p, terms, top):
    """The number of passes, the last edge, and how the chain ends."""
    steps = all_passes(p, tuple(terms), top)
    return len(steps), steps[-1][0], steps[-1][3]


# ---- records of accepted lists

class Record:
    """An accepted record. How the chain ends, the side of a tie and the sum's
    sign are no part of a record: they tell what a case reaches."""

    def __init__(self, result, flags, passes=0, edge=0, leans=EQUAL, end='', side='', negative=0):
        self.result, self.flags, self.passes, self.edge, self.leans = result, flags, passes, edge, leans
        self.end, self.side, self.negative = end, side, negative


def without_terms(f, result, flags):
    """No pass is run: the terms, if there are any, do not count."""
    return Record(result, flags, leans=leaning(f, result, 0, 0))


def chosen_nan(f, c, nans):
    if c['nan'] == 3:
        return f.nan(c['negative'], 0)
    if c['nan'] == 0:
        first = [v for v in nans if v[2]] + nans
    elif c['nan'] == 1:
        first = nans
    else:
        first = sorted(nans, key=lambda v: (v[2], -v[3], v[1]))
    return f.nan(first[0][1], first[0][3])


def settle(f, c, flags, zeros, infinities, terms, top):
    """The record of a list without a NaN."""
    if len(infinities) == 2:
        return without_terms(f, f.nan(c['negative'], 0), flags + INVALID)
    if infinities:
        return without_terms(f, f.infinity(infinities.pop()), flags)
    down = int(c['rounding'] == DOWN)
    if not terms:
        return without_terms(f, f.zero(down if len(zeros) == 2 else 1 in zeros), flags)
    low = min(x for _, _, x in terms)
    passes, edge, end = chain(f.p, terms, top)
    total = sum((-m if negative else m) << (x - low) for negative, m, x in terms)
    if total == 0:
        return Record(f.zero(down), flags, passes, edge, leaning(f, f.zero(down), total, low), end)
    negative = int(total < 0)
    result, more, side = round_once(f, c, negative, abs(total), low)
    return Record(result, flags + more, passes, edge, leaning(f, result, total, low), end, side, negative)


def position(v):
    return v[3] + v[2].bit_length() - 1


def operands(f, c, values):
    """The values decoded, and flag 128."""
    vs, flags = [f.decode(b) for b in values], 0
    for i, v in enumerate(vs):
        if f.is_subnormal(v):
            flags = SUBNORMAL
            if c['daz']:
                vs[i] = 'zero', v[1]
    return vs, flags


def sum_terms(summand, vs):
    """The terms of the finite values that are not zero, and T."""
    numbers = [v for v in vs if v[0] == 'number']
    if summand == SQUARE:
        return [(0, v[2] ** 2, 2 * v[3]) for v in numbers], max((2 * position(v) + 1 for v in numbers), default=0)
    terms = [(v[1] if summand == VALUE else 0, v[2], v[3]) for v in numbers]
    return terms, max((position(v) for v in numbers), default=0)


def has_unsupported(*lists):
    return any(v[0] == 'unsupported' for vs in lists for v in vs)


def default_nan(f, c, flags):
    return without_terms(f, f.nan(c['negative'], 0), flags + INVALID)


def sum_record(f, c, summand, values):
    vs, flags = operands(f, c, values)
    if has_unsupported(vs):
        return default_nan(f, c, flags)
    nans = [v for v in vs if v[0] == 'nan']
    signaling = any(v[2] for v in nans)
    infinite = any(v[0] == 'infinity' for v in vs)
    if nans and (summand == VALUE or signaling or not infinite):
        return without_terms(f, chosen_nan(f, c, nans), flags + INVALID * signaling)
    sign = lambda v: v[1] if summand == VALUE else 0
    zeros = {sign(v) for v in vs if v[0] == 'zero'}
    infinities = {sign(v) for v in vs if v[0] == 'infinity'}
    return settle(f, c, flags, zeros, infinities, *sum_terms(summand, vs))


def dot_terms(pairs):
    numbers = [(x, y) for x, y in pairs if x[0] == y[0] == 'number']
    terms = [(x[1] ^ y[1], x[2] * y[2], x[3] + y[3]) for x, y in numbers]
    return terms, max((position(x) + position(y) + 1 for x, y in numbers), default=0)


def dot_record(f, c, left, right):
    (xs, a), (ys, b) = operands(f, c, left), operands(f, c, right)
    flags = a | b
    if has_unsupported(xs, ys):
        return default_nan(f, c, flags)
    pairs = list(zip(xs, ys))
    invalid = any({x[0], y[0]} == {'infinity', 'zero'} for x, y in pairs)
    nans = [v for pair in pairs for v in pair if v[0] == 'nan']
    if nans:
        return without_terms(f, chosen_nan(f, c, nans), flags + INVALID * (invalid or any(v[2] for v in nans)))
    if invalid:
        return without_terms(f, f.nan(c['negative'], 0), flags + INVALID)
    infinities = {x[1] ^ y[1] for x, y in pairs if 'infinity' in (x[0], y[0])}
    zeros = {x[1] ^ y[1] for x, y in pairs if 'zero' in (x[0], y[0])}
    return settle(f, c, flags, zeros, infinities, *dot_terms(pairs))


# ---- refusals

def stray(w, values):
    """The indices of the elements that are 2^W or more."""
    return [i for i, v in enumerate(values) if v >> w]


def value_size(kind):
    """The bytes of a value: ten of kind 4, of which a list has to hold whole ones also where it is refused with 3, and eight of every other kind."""
    return 10 if kind == 4 else 8


def conditions(kind, e, w, bias, c, summand, left, right, more, room, size=8, least=24):
    """The numbers of the table whose conditions hold. A right list makes it a
    dot; more is the number of bytes behind the values of either list, and
    room the length of the answer buffer of a byte entry, to which a value has
    so many bytes, and an answer at least so many."""
    holds = set()
    if any((8 * len(l) + n) % size for l, n in zip((left, right or []), more)):
        holds.add(1)
    if room < least:
        holds.add(2)
    if not valid_format(kind, e, w, bias):
        holds.add(3)
    if any(c[name] >= most for name, most in zip(SETTINGS, RANGES)) or c['precision'] > max(w - e, 0):
        holds.add(4)
    if right is None and summand > 2:
        holds.add(4)
    if right is not None and len(left) != len(right):
        holds.add(5)
    if len(left) > LIMIT:
        holds.add(6)
    if stray(w, left) or stray(w, right or []):
        holds.add(7)
    return holds


def ten_conditions(f, c, summand, left, right, room):
    """The same of a call with lists of bytes, by a format (kind, E, W, bias): kind 4 alone takes them by tens, and has 32 bytes of answer. Of the other
    kinds the numbers above 5 are left out."""
    kind, e, w, bias = f
    size = value_size(kind)
    least, digits = (32, 64) if kind == 4 else (24, max(w - e, 0))
    holds = {1} if len(left) % size or len(right or b'') % size else set()
    if room < least:
        holds.add(2)
    if f != (4, 15, 80, None) if kind == 4 else not valid_format(*f):
        holds.add(3)
    if any(c[name] >= most for name, most in zip(SETTINGS, RANGES)) or c['precision'] > digits or right is None and summand > 2:
        holds.add(4)
    if right is not None and len(left) // size != len(right) // size:
        holds.add(5)
    return holds


# ---- pence

def pence(kind, e, w, b, bias=None):
    """The figure, the refusal and the place."""
    if not valid_format(kind, e, w, bias):
        return 0, 3, 0
    if b >> w:
        return 0, 7, 0
    v = Format(kind, e, w, bias).decode(b)
    if v[0] in ('nan', 'infinity'):
        return 0, 8, 0
    if v[0] == 'zero':
        return 0, 0, 0
    _, negative, m, x = v
    # the nearest whole number to 100 m 2^x, ties away from zero
    figure = 100 * m << x if x >= 0 else (200 * m + (1 << -x)) >> (1 - x)
    if figure > LARGEST_PENCE:
        return 0, 8, 0
    return -figure if negative else figure, 0, 0


def sum_pence(kind, e, w, values, bias=None):
    """The same of a list: a hundred times its exact sum, which is rounded to no format."""
    if not valid_format(kind, e, w, bias):
        return 0, 3, 0
    if len(values) > LIMIT:
        return 0, 6, 0
    if stray(w, values):
        return 0, 7, stray(w, values)[0]
    vs = [Format(kind, e, w, bias).decode(b) for b in values]
    if any(v[0] in ('nan', 'infinity') for v in vs):
        return 0, 8, 0
    terms, _ = sum_terms(VALUE, vs)
    low = min((x for _, _, x in terms), default=0)
    total = 100 * sum((-m if negative else m) << (x - low) for negative, m, x in terms)
    # the whole pence of the magnitude, and what is left of a penny: half of one or more goes up
    if low < 0:
        figure, rest = divmod(abs(total), 1 << -low)
        figure += 2 * rest >= 1 << -low
    else:
        figure = abs(total) << low
    if figure > LARGEST_PENCE:
        return 0, 8, 0
    return -figure if total < 0 else figure, 0, 0


# ---- tables

# the numbers of a table's refusals, in the order in which they are given
TABLE_ORDER = (2, 3, 4, 6, 9, 10, 7)


def table_conditions(kind, e, w, bias, c, rows, columns, cells, lent, room):
    """The numbers whose conditions hold; lent are the lengths of the lists for the totals of the rows and of the columns."""
    holds = conditions(kind, e, w, bias, c, VALUE, cells, None, (0, 0), room)
    if rows * columns != len(cells):
        holds.add(9)
    if lent[0] < rows or lent[1] < columns:
        holds.add(10)
    return holds


def table_lists(rows, columns, cells):
    """The cells of each row, from left to right, and those of each column, from top to bottom."""
    at = lambda i, j: cells[i * columns + j]
    return [[at(i, j) for j in range(columns)] for i in range(rows)], [[at(i, j) for i in range(rows)] for j in range(columns)]


# ---- amounts known within a range

KNOWN, BETWEEN, MISSING = range(3)
INFINITE = 0x7ff0000000000000


def double(b):
    """The double of an encoding, as Python has it."""
    return struct.unpack('<d', b.to_bytes(8, 'little'))[0]


def is_finite(b):
    return math.isfinite(double(b))


def in_order(k):
    """The encoding of the double k places above zero, or below it: from -infinity to infinity by its size, the one zero +0."""
    return k if k >= 0 else (1 << 63) - k


def not_above(k, x):
    """Whether the double k places above zero is at most x; an infinity is below or above every fraction."""
    return k == -INFINITE or k != INFINITE and Fraction(double(in_order(k))) <= x


def greatest_not_above(x):
    """The greatest double or infinity that is not above a fraction."""
    low, high = -INFINITE, INFINITE
    while high - low > 1:
        k = (low + high) // 2
        low, high = (k, high) if not_above(k, x) else (low, k)
    return in_order(low)


def least_not_below(x):
    """The least one that is not below it: the negative of the greatest that is not above its negative."""
    b = greatest_not_above(-x)
    return b if b == 0 else b ^ 1 << 63


def range_conditions(tags, firsts, seconds, ceiling, lent):
    """The numbers whose conditions hold, each with what causes it; lent is the length of the list for the pair."""
    holds = set()
    if lent < 2:
        holds.add((2, 'pair'))
    if not len(tags) == len(firsts) == len(seconds):
        holds.add((5, 'lengths'))
    if len(tags) > LIMIT:
        holds.add((6, 'entries'))
    if not is_finite(ceiling):
        holds.add((11, 'ceiling not finite'))
    elif double(ceiling) < 0:
        holds.add((11, 'ceiling below zero'))
    for tag, first, second in zip(tags, firsts, seconds):
        if tag > MISSING:
            holds.add((11, 'tag'))
        elif tag != MISSING and not is_finite(first):
            holds.add((11, 'first figure'))
        elif tag == BETWEEN and not is_finite(second):
            holds.add((11, 'second figure'))
        elif tag == BETWEEN and double(first) > double(second):
            holds.add((11, 'low above high'))
    return holds


def range_ends(tags, firsts, seconds, ceiling):
    """The lows and the highs of the entries of an accepted call."""
    lows = [0 if tag == MISSING else first for tag, first in zip(tags, firsts)]
    highs = [first if tag == KNOWN else second if tag == BETWEEN else ceiling for tag, first, second in zip(tags, firsts, seconds)]
    return lows, highs


def range_pair(lows, highs):
    exact = lambda figures: sum((Fraction(double(b)) for b in figures), Fraction(0))
    return greatest_not_above(exact(lows)), least_not_below(exact(highs))


# ---- career pages

GROUP = 64
SHORT_MOST = 1048576
LETTERS, LONG_LETTERS = b'CPG1', b'CPG2'
TRAILER, LONG_TRAILER = struct.Struct('<III4s'), struct.Struct('<QQI4s')
# by the letters of a trailer its fields, and the counts that it may have
TRAILERS = {LETTERS: (TRAILER, range(SHORT_MOST + 1)), LONG_LETTERS: (LONG_TRAILER, range(SHORT_MOST + 1, LIMIT + 1))}
SUMMARY = struct.Struct('<iiB3s')
# the numbers of a page's refusals, in the order in which they are given
PAGE_ORDER = (2, 12, 13, 4)


def set_bits(x):
    """The positions of the highest and of the lowest set bit of a float that is finite and not zero."""
    over, under = abs(x).as_integer_ratio()
    # the fraction is in its lowest terms, and one of the two is odd
    return over.bit_length() - under.bit_length(), (over & -over).bit_length() - under.bit_length()


def page_summary(values):
    """The three numbers of a group of values."""
    floats = [double(b) for b in values]
    spans = [set_bits(x) for x in floats if math.isfinite(x) and x != 0]
    high, low = (max(h for h, _ in spans), min(l for _, l in spans)) if spans else (0, 0)
    return high, low, any(map(math.isnan, floats)) + 2 * any(map(math.isinf, floats)) + 4 * (0 in floats)


def in_groups(values):
    return [values[i:i + GROUP] for i in range(0, len(values), GROUP)]


def page_bytes(values):
    """The page that is written of some values."""
    n = len(values)
    summaries = b''.join(SUMMARY.pack(*page_summary(group), bytes(3)) for group in in_groups(values))
    trailer = TRAILER.pack(8 * n, n, GROUP, LETTERS) if n <= SHORT_MOST else LONG_TRAILER.pack(8 * n, n, GROUP, LONG_LETTERS)
    return b''.join(b.to_bytes(8, 'little') for b in values) + summaries + trailer


def page_values(page):
    """The values of a page, or None where it does not open."""
    if page[-4:] not in TRAILERS:
        return None
    trailer, counts = TRAILERS[page[-4:]]
    if len(page) < trailer.size:
        return None
    offset, count, group, _ = trailer.unpack(page[-trailer.size:])
    if group != GROUP or count not in counts or offset != 8 * count:
        return None
    area = page[offset:-trailer.size]
    if offset > len(page) or len(area) != SUMMARY.size * -(-count // GROUP):
        return None
    values = [int.from_bytes(page[8 * i:8 * i + 8], 'little') for i in range(count)]
    if list(SUMMARY.iter_unpack(area)) != [(*page_summary(part), bytes(3)) for part in in_groups(values)]:
        return None
    return values


def page_conditions(page, start, end, c, summand, room):
    """The numbers whose conditions hold. A page that does not open has no count that an end could be above."""
    holds = conditions(IEEE, 11, 64, None, c, summand, [], None, (0, 0), room)
    values = page_values(page)
    if values is None:
        holds.add(12)
    if start > end or values is not None and end > len(values):
        holds.add(13)
    return holds


def page_written(values, room):
    """What the writing answers, and the bytes that it lays."""
    page = page_bytes(values)
    if len(page) > room:
        return 2, b''
    return (6, b'') if len(values) > LIMIT else (256 * len(page), page)


# ---- one total, several formats

def entry_conditions(kind, values, more, size, room):
    """The numbers whose conditions hold for the call itself: the list's kind, its words and some bytes more, the bytes of the targets and of the answer."""
    holds = {1} if size != 312 or (8 * len(values) + more) % value_size(kind) else set()
    if room < 96:
        holds.add(2)
    return holds


# the numbers of a target's refusals, in the order in which they are given
TARGET_ORDER = (3, 4, 6, 7, 17)


def named_bias(named, bias):
    """The bias of a format that is given by five numbers, None for its kind's own; and whether it is named as a whole."""
    return (bias, True) if named == 1 else (None, named == 0 and bias == 0)


def target_conditions(f, f_whole, daz, values, t, t_whole, c):
    """The numbers whose conditions hold for one target, by the formats (kind, E, W, bias) of the list and of the target, and whether each is named as a
    whole. Of an invalid format the numbers that ask for its digits or its values are left out."""
    listed, aimed = f_whole and valid_format(*f), t_whole and valid_format(*t)
    holds = set() if listed and aimed else {3}
    if daz > 1 or any(c[name] >= most for name, most in zip(SETTINGS, RANGES)) or aimed and c['precision'] > t[2] - t[1]:
        holds.add(4)
    if len(values) > LIMIT:
        holds.add(6)
    if listed and stray(f[2], values):
        holds.add(7)
    if listed and aimed and t[2] - t[1] > f[2] - f[1]:
        holds.add(17)
    if listed and any(Format(*f).decode(v % (1 << f[2]))[0] in ('nan', 'infinity') for v in values):
        holds.add(17)
    return holds


def target_record(f, daz, values, t, c):
    """The exact sum of the list, rounded once into the format t. Passes and last edge are those of the list's chain, and so is flag 128."""
    vs, flags = operands(f, {'daz': daz}, values)
    down = int(c['rounding'] == DOWN)
    zeros = {v[1] for v in vs if v[0] == 'zero'}
    terms, top = sum_terms(VALUE, vs)
    if not terms:
        return without_terms(t, t.zero(down if len(zeros) == 2 else 1 in zeros), flags)
    passes, edge, end = chain(f.p, terms, top)
    low = min(x for _, _, x in terms)
    total = sum((-m if negative else m) << (x - low) for negative, m, x in terms)
    if total == 0:
        return Record(t.zero(down), flags, passes, edge, leaning(t, t.zero(down), total, low), end)
    negative = int(total < 0)
    result, more, side = round_once(t, c, negative, abs(total), low)
    return Record(result, flags + more, passes, edge, leaning(t, result, total, low), end, side, negative)


# ---- a total within an allowance of passes

# the numbers of its refusals, in the order in which they are given
WITHIN_ORDER = (1, 2, 16, 3, 4, 5, 6, 7)


def within_conditions(kind, e, w, named, bias, c, summand, left, right, more, room, allowance):
    """The numbers whose conditions hold, by the five numbers of a format. The answer has 144 bytes."""
    bias, whole = named_bias(named, bias)
    holds = conditions(kind, e, w, bias, c, summand, left, right, more, room, value_size(kind), 144)
    if not whole:
        holds.add(3)
    if allowance == 0:
        holds.add(16)
    return holds


@lru_cache(maxsize=1)
def walked(f, c, summand, left, right):
    """The record of an accepted total, its terms, and its passes. A format, settings and lists are tuples, so that one list is added up once for all its
    allowances."""
    f, c = Format(*f), dict(zip(SETTINGS, c))
    record = sum_record(f, c, summand, left) if right is None else dot_record(f, c, left, right)
    if not record.passes:
        return record, [], []
    xs, _ = operands(f, c, left)
    terms, top = sum_terms(summand, xs) if right is None else dot_terms(list(zip(xs, operands(f, c, right)[0])))
    return record, terms, all_passes(f.p, tuple(terms), top)


def off(terms, w, boundary, s):
    """How far S in units of 2^w, plus the boundary, is from the exact sum, and how far fewer units than terms would reach, both in units of the lowest
    position."""
    whole, at = boundary or (0, w)
    low = min([w, at] + [x for _, _, x in terms])
    total = sum((-m if negative else m) << (x - low) for negative, m, x in terms)
    return abs(total - (s << (w - low)) - (whole << (at - low))), len(terms) << (w - low)


# ---- the contribution that reaches a wanted total

# the numbers of its refusals, in the order in which they are given
CONTRIBUTION_ORDER = (2, 3, 4, 6, 7, 15, 14)
# up to this width every number of a format is tried
SEARCHED = 10


def place_of(f, b):
    """How many numbers of the format b lies above zero, or, with a minus, below it. Both zeros have the place 0, the infinities those behind the largest
    numbers."""
    return f.sign - b if b >= f.sign else b


def at_place(f, k):
    """The number there; of the zeros +0."""
    return k if k >= 0 else f.sign - k


def last_place(f):
    """That of the largest number."""
    return (f.ones << f.fraction) - 1


class Longer:
    """A list of finite values, and the plain sums of it and one number more."""

    def __init__(self, f, c, values):
        self.f, self.c = f, c
        self.terms, _ = sum_terms(VALUE, [f.decode(b) for b in values])

    def exact(self, *more):
        """The exact sum with these encodings: a whole number, and the position of its unit."""
        terms = self.terms + sum_terms(VALUE, [self.f.decode(b) for b in more])[0]
        low = min((x for _, _, x in terms), default=self.f.low)
        return sum((-m if negative else m) << (x - low) for negative, m, x in terms), low

    def place(self, k):
        """The place of the sum with the number at the place k."""
        total, low = self.exact(at_place(self.f, k))
        if total == 0:
            return 0
        result, _, _ = round_once(self.f, self.c, int(total < 0), abs(total), low)
        return place_of(self.f, result)


def searched(longer, wanted):
    """The place of the contribution, looked for among all finite numbers, the most negative one first; None where no number does it."""
    last, target = last_place(longer.f), place_of(longer.f, wanted)
    return next((k for k in range(-last, last + 1) if longer.place(k) == target), None)


def edge_of(f, c, wanted):
    """From where on an exact sum is rounded to the wanted total, or to more than it: a whole number, the position of its unit, and whether that sum itself
    is. None where an overflow gives no more than the largest number, so that no sum is rounded to more than a positive total, and every one to a negative
    total or more.

    Of the results, the numbers of q digits, g is the first that is not below the wanted total. g and the result before it are whole numbers of one unit, one
    of them odd, and the mode shares out what lies between the two. Beyond the largest result the next one is 2^(emax + 1), an overflow."""
    mode, q = c['rounding'], c['precision'] or f.p
    v = f.decode(wanted)
    positive = v[0] == 'number' and not v[1]
    m, x = v[2:] if v[0] == 'number' else (0, f.low)
    top = max(f.emin, x + m.bit_length() - 1)
    unit = top - q + 1
    inward = m << x - unit if x >= unit else m >> unit - x
    if not positive:
        g, before = inward, inward + 1
    else:
        g = m << x - unit if x >= unit else -(-m >> unit - x)
        if g == 1 << q - 1 and top > f.emin:
            # below a power of two the results lie twice as close
            g, unit = 2 * g, unit - 1
        before = g - 1
    outward = mode in (EVEN, TIES_AWAY, TIES_TO_ZERO, AWAY) or mode == (UP if positive else DOWN)
    if max(g, before) == 1 << q and unit + q > f.emax and (c['saturate'] or not outward):
        return None
    sign = 1 if positive else -1
    if mode in (EVEN, TIES_AWAY, TIES_TO_ZERO):
        # the middle goes to the even one, to the outer one or to the inner one
        return sign * (g + before), unit - 1, {EVEN: g % 2 == 0, TIES_AWAY: positive, TIES_TO_ZERO: not positive}[mode]
    # either all that lies between goes to g, or g alone
    between = {UP: True, DOWN: False, TO_ZERO: not positive, AWAY: positive, TO_ODD: g % 2 == 1}[mode]
    return (sign * before, unit, False) if between else (sign * g, unit, True)


def first_from(f, m, x, itself):
    """The place of the least finite number that is not below m * 2^x, or that is above it, and the one behind the last where there is none."""
    last = last_place(f)
    if m == 0:
        return 0 if itself else 1
    size = abs(m)
    unit = max(f.emin, x + size.bit_length() - 1) - f.fraction
    count = size << x - unit if x >= unit else size >> unit - x
    exact = x >= unit or count << unit - x == size
    place = count + (unit - f.low << f.fraction)
    k = place + (not (exact and itself)) if m > 0 else (exact and not itself) - place
    return min(max(k, -last), last + 1)


def first_place(longer, wanted):
    """The place of the least finite number with which the sum is not below the wanted total, or the one behind the last. It is found by its size: what is
    missing from the list's exact sum to the edge. Sums rise with the number, and so the sum with this one, and with the one below, decide."""
    f = longer.f
    last, target = last_place(f), place_of(f, wanted)
    edge = edge_of(f, longer.c, wanted)
    if edge is None:
        k = last + 1 if target > 0 else -last
    else:
        (total, low), (m, x, itself) = longer.exact(), edge
        at = min(low, x)
        k = first_from(f, (m << x - at) - (total << low - at), at, itself)
    assert k == -last or longer.place(k - 1) < target
    assert k > last or longer.place(k) >= target
    return k


@lru_cache(maxsize=4)
def contribution(f, c, values, wanted):
    """The least finite number with which the plain sum of the list is the wanted total, None where none does it; and the first place of which the sum is not
    below that. Format, settings and list are tuples. In a small format every number is tried, and what is found by its size has to be the same."""
    f = Format(*f)
    longer = Longer(f, dict(zip(SETTINGS, c)), values)
    first = first_place(longer, wanted)
    found = first if first <= last_place(f) and longer.place(first) == place_of(f, wanted) else None
    if f.w <= SEARCHED:
        assert searched(longer, wanted) == found
    return None if found is None else at_place(f, found), first


def none_does(f, c, values, wanted):
    """Whether no finite number makes the sum the wanted total, also where this or a value is an infinity or a NaN, which is equal to nothing."""
    g = Format(*f)
    listed, aimed = [g.decode(b) for b in values], g.decode(wanted)
    infinities = {v for v in listed if v[0] == 'infinity'}
    if any(v[0] == 'nan' for v in [*listed, aimed]) or len(infinities) > 1:
        return True
    if infinities:
        return aimed not in infinities
    if aimed[0] == 'infinity':
        outermost = -last_place(g) if aimed[1] else last_place(g)
        return Longer(g, dict(zip(SETTINGS, c)), values).place(outermost) != place_of(g, wanted)
    return contribution(f, c, values, wanted)[0] is None


def contribution_conditions(kind, e, w, named, bias, c, values, wanted, room):
    """The numbers whose conditions hold, by the five numbers of a format. 15 and 14 are asked of the Ieee format with the same E and W, and with its bias
    where it names one as a whole, of the values without their stray bits, and 14 with flush to zero and denormals-are-zero 0: so they can hold beside every
    other number, unless there is no such format, or another setting is out of its range."""
    bias, whole = named_bias(named, bias)
    holds = conditions(kind, e, w, bias, c, VALUE, values, None, (0, 0), room, least=8)
    plain = {**c, 'flush': 0, 'daz': 0}
    sound = 4 not in conditions(IEEE, e, w, None, plain, VALUE, [], None, (0, 0), 8)
    if not whole or kind != IEEE:
        holds.add(3)
    if c['flush'] or c['daz']:
        holds.add(4)
    if len(values) >= LIMIT:
        holds.add(6)
    if stray(w, [wanted]):
        holds.add(7)
    f = IEEE, e, w, bias if whole else None
    if valid_format(*f):
        *listed, aimed = (b % (1 << w) for b in [*values, wanted])
        if any(Format(*f).decode(b)[0] in ('nan', 'infinity') for b in [*listed, aimed]):
            holds.add(15)
        if sound and none_does(f, tuple(plain[name] for name in SETTINGS), tuple(listed), aimed):
            holds.add(14)
    return holds
