"""Sums to ask, the same every time: families of cases from seeded streams.

Each family is a generator of `Case`; `all_cases` puts them together. Only the
bits of the standard generator are used, so that every version of Python draws
the same cases.
"""

import random
from itertools import combinations, product
from typing import NamedTuple

from kernel import BASE, MODES, REGULAR, ZERO, Number, limb_count, power, regular, turn_sign, zero

ADD, SUBTRACT, REROUND, COMPARE = range(4)
MOST, LEAST = BASE.most_exponent, BASE.least_exponent
ABSENT = Number(False, REGULAR, 0, 0)
FULL = power(64) - 1

SMALL = (2, 3, 4, 5, 8, 11, 24, 53)
LIMBED = (62, 63, 64, 65, 66, 113, 127, 128, 129, 191, 192, 193, 255, 256, 257)
LARGE = (1023, 1024, 1025, 2048, 4031, 4032, 4033, 4094, 4095, 4096)


class Case(NamedTuple):
    operation: int
    mode: int
    precision: int
    length: int
    fill: int
    x: Number
    y: Number


class Draw:
    """A seeded stream of choices."""

    def __init__(self, name):
        self.source = random.Random(f"sums {name}")

    def below(self, count):
        """A whole number below `count`."""
        return self.source.getrandbits(64) % count

    def between(self, low, high):
        return low + self.below(high - low + 1)

    def of(self, choices):
        return choices[self.below(len(choices))]

    def sign(self):
        return self.of((1, -1))

    def bits(self, count):
        return self.source.getrandbits(count) if count else 0

    def precision(self):
        """Mostly small, often about a multiple of 64."""
        roll = self.below(10)
        if roll < 4:
            return self.of(SMALL)
        return self.of(LIMBED) if roll < 9 else self.between(2, 320)

    def runs(self, count):
        """Digits in long runs of ones and zeros."""
        whole, length = 0, 0
        bit = self.below(2)
        while length < count:
            run = self.between(1, self.of((2, 9, 70, 200)))
            whole = (whole << run) + (power(run) - 1 if bit else 0)
            length, bit = length + run, 1 - bit
        return whole >> (length - count)

    def digits(self, precision):
        """b1 .. bp with b1 = 1: random, in runs, all ones, a power of two, or nearly so."""
        lead, rest = power(precision - 1), precision - 1
        style = self.below(8)
        if style < 2:
            return lead + self.bits(rest)
        if style < 5:
            return lead + self.runs(rest)
        if style == 5:
            return self.of((2 * lead - 1, max(2 * lead - 2, lead)))
        if style == 6:
            return self.of((lead, lead + 1))
        return lead + power(self.below(precision)) % lead

    def regular(self, precision, exponent):
        return regular(self.sign(), self.digits(precision), precision, exponent)

    def fill(self):
        return self.of((0x00, 0x5A, 0xA5, 0xFF))

    def limbs(self, count):
        return tuple(self.bits(64) for _ in range(count))

    def zero(self, precision):
        """A zero with rubbish limbs."""
        return zero(self.below(2) == 1, precision, self.limbs(limb_count(precision)))

    def case(self, x, y, precision, operation=None, mode=None):
        operation = self.of((ADD, SUBTRACT)) if operation is None else operation
        mode = self.of(MODES) if mode is None else mode
        return Case(operation, mode, precision, limb_count(precision), self.fill(), x, y)


def clamped(exponent):
    return min(max(exponent, LEAST), MOST)


def in_all_modes(draw, x, y, precision, operation=ADD):
    for mode in MODES:
        yield draw.case(x, y, precision, operation, mode)


def either_order(draw, x, y):
    return (x, y) if draw.below(2) else (y, x)


# Families of accepted sums, and of those refused 6 and 7


def tiny():
    """Pairs of two and three digits at gaps 0 to 3, a part of them all."""
    draw = Draw("tiny")
    for _ in range(500):
        m, n, p = (draw.between(2, 3) for _ in range(3))
        e = draw.between(-3, 3)
        yield draw.case(draw.regular(m, e), draw.regular(n, e + draw.between(-3, 3)), p)


def gap_for(draw, m, n, p):
    """0, 1, 63 to 65, near p, near m, where columns end, or huge."""
    kind = draw.below(8)
    if kind == 0:
        return draw.of((0, 1, 2))
    if kind == 1:
        return draw.of((62, 63, 64, 65, 66, 127, 128, 129))
    if kind == 2:
        return max(p + draw.between(-3, 3), 0)
    if kind == 3:
        return max(m + draw.between(-2, 2), 0)
    if kind == 4:
        return max(m - n + draw.between(-2, 2), 0)
    if kind == 5:
        return 64 * limb_count(max(m, p + 2)) + draw.between(-2, 2)
    if kind == 6:
        return draw.of((1000, 4160, 8256, 12288, 12289, 10**6, 2**30, 2**31 - 2))
    return draw.between(0, m + p)


def gaps():
    """Every gap against every precision near the end of a limb."""
    draw = Draw("gaps")
    for _ in range(2200):
        m, n, p = draw.precision(), draw.precision(), draw.precision()
        gap = gap_for(draw, m, n, p)
        high = draw.between(LEAST + gap, MOST) if gap > 10**6 else draw.between(-100, 100)
        x, y = draw.regular(m, clamped(high)), draw.regular(n, clamped(high - gap))
        yield draw.case(*either_order(draw, x, y), p)


def cancellations():
    """Unlike operands that are nearly equal: to zero and to a few bits."""
    draw = Draw("cancellations")
    for _ in range(600):
        m = draw.precision()
        n = draw.of((m, m, m + 1, m + 63, m + 64, m + 65, draw.precision()))
        digits = draw.digits(m)
        same = digits * power(n - m) if n >= m else digits // power(m - n)
        near = same + draw.of((0, 0, 1, -1, 2, power(draw.below(n)), draw.bits(draw.below(n))))
        near = min(max(near, power(n - 1)), power(n) - 1)
        e = draw.between(-50, 50)
        sign = draw.sign()
        x, y = regular(sign, digits, m, e), regular(sign, near, n, e)
        yield draw.case(*either_order(draw, x, y), draw.precision(), SUBTRACT)


def below_a_power():
    """x a power of two, y just below it: the difference loses every digit."""
    draw = Draw("below a power")
    for _ in range(250):
        n = draw.precision()
        m, p = draw.precision(), draw.precision()
        y = regular(1, power(n) - 1 - draw.of((0, 0, 1, draw.bits(draw.below(n - 1)))), n, 0)
        x = regular(1, power(m - 1) + draw.of((0, 0, 1)), m, 1)
        yield draw.case(*either_order(draw, x, y), p, SUBTRACT)


def ties():
    """A tie exactly, and a tie that the lowest digit of the lower operand breaks."""
    draw = Draw("ties")
    for _ in range(700):
        p, n = draw.precision(), draw.precision()
        extra = draw.of((1, 1, 2, 62, 63, 64, 65, 128))
        q = power(p - 1) + draw.of((draw.bits(p - 1), draw.runs(p - 1), 0, power(p - 1) - 1))
        digits = (2 * q + draw.below(2)) * power(extra - 1)
        digits += draw.of((0, 0, 1, power(extra - 1) - 1 if extra > 1 else 0))
        m = p + extra
        digits = min(digits, power(m) - 1)
        tail = draw.of((power(n - 1), power(n - 1) + 1, power(n) - 1, draw.digits(n)))
        gap = draw.of((p, p + 1, p + 2, m - 1, m, m + 1, m + 63, m + 64, m + 200, p + 64))
        x, y = regular(draw.sign(), digits, m, 0), regular(draw.sign(), tail, n, -gap)
        yield draw.case(*either_order(draw, x, y), p)


def carries():
    """Ones and ones: carries that may still come, from one unread digit or many."""
    draw = Draw("carries")
    for _ in range(500):
        columns, p = draw.between(1, 3), draw.of((2, 3, 4, 53, 62, 63, 64, 65, 126, 127, 128))
        m = 64 * columns + draw.of((-1, 0, 1, 2, 64))
        gap = draw.of((0, 1, p - 1, p, p + 1, 63, 64, 65, 64 * columns - 1, 64 * columns))
        n = max(m - gap + draw.of((-1, 0, 1, 64, 65)), 2)
        ones = power(m) - 1 - draw.of((0, 0, 1, power(draw.below(m - 1)), draw.runs(m - 1)))
        y_digits = draw.of((power(n - 1), power(n) - 1, power(n - 1) + 1, draw.digits(n)))
        x = regular(1, max(ones, power(m - 1)), m, 0)
        y = regular(draw.of((1, 1, -1)), y_digits, n, -gap)
        yield draw.case(*either_order(draw, x, y), p, ADD)


def range_ends():
    """Both ends of the exponent range: refusals 6 and 7 and what just escapes them."""
    draw = Draw("range ends")
    for _ in range(500):
        m, n, p = draw.precision(), draw.precision(), draw.precision()
        e = MOST - draw.of((0, 0, 0, 1))
        f = e - draw.of((0, 0, 1, 2, p - 1, p, p + 1, m, 63, 64, 65))
        sign = draw.sign()
        x = regular(sign, draw.of((power(m) - 1, draw.digits(m))), m, e)
        y = regular(sign * draw.of((1, 1, 1, -1)), draw.digits(n), n, f)
        yield draw.case(*either_order(draw, x, y), p, ADD)
    for _ in range(700):
        m, p = draw.precision(), draw.precision()
        n = draw.of((m, m + 1, m + 64, draw.precision()))
        e = LEAST + draw.of((0, 0, 0, 1, 2, 3, 63, 64, 65, draw.below(200)))
        digits = draw.digits(m)
        same = digits * power(n - m) if n >= m else digits // power(m - n)
        near = same + draw.of((0, 1, -1, power(draw.below(n)), -power(draw.below(n)), draw.bits(draw.below(n))))
        near = min(max(near, power(n - 1)), power(n) - 1)
        sign = draw.sign()
        f = clamped(e + draw.of((0, 0, 0, 0, 1, -1)))
        x, y = regular(sign, digits, m, e), regular(-sign, near, n, f)
        yield draw.case(*either_order(draw, x, y), p, ADD)


def smallest_differences():
    """x - y whose size is about the least exponent, all ones in its first p digits."""
    draw = Draw("smallest differences")
    for _ in range(400):
        p = draw.of((2, 3, 4, 53, 63, 64, 65))
        above = draw.of((1, 2, 30, 63, 64, 65, 127, 128))
        ones = draw.of((p - 1, p, p, p + 1, p + 2, p + 64))
        pattern = power(ones) - 1
        tail = draw.of((0, 1, 63, 64))
        pattern = (pattern << tail) + draw.of((0, 0, 1 if tail else 0, power(tail) - 1, power(tail) >> 1))
        size = ones + tail
        e = LEAST - 1 + above + draw.of((-1, 0, 0, 0, 1))
        m = above + size
        base = power(m - 1) + (draw.bits(max(above - 2, 0)) << (size + 1)) % power(m - 1)
        x_digits, y_digits = min(base + pattern, power(m) - 1), base
        if e < LEAST:
            e = LEAST
        longer = draw.of((0, 0, 1, 64))
        sign = draw.sign()
        x = regular(sign, x_digits << longer, m + longer, e)
        y = regular(sign, y_digits, m, e)
        yield draw.case(*either_order(draw, x, y), p, SUBTRACT)


def large():
    """Precisions up to 4,096, with multiples of 64 and their neighbours."""
    draw = Draw("large")
    for _ in range(450):
        m, n, p = (draw.of(LARGE if draw.below(3) else SMALL + LIMBED) for _ in range(3))
        gap = draw.of((0, 0, 1, 63, 64, 65, p, p + 1, m, m - 1, 10**6, draw.below(4200)))
        x, y = draw.regular(m, 0), draw.regular(n, -gap)
        if draw.below(4) == 0:
            y = regular(1, min(x_as(x, m, n) + draw.below(3), power(n) - 1), n, 0)
        yield draw.case(*either_order(draw, x, y), p)


def x_as(x, m, n):
    """The digits of x cut or lengthened to n."""
    whole = 0
    for limb in reversed(x.limbs):
        whole = (whole << 64) + limb
    digits = whole >> (64 * len(x.limbs) - m)
    return digits << (n - m) if n >= m else digits >> (m - n)


# The corners by name


def depth_example():
    """Bit 62 clear and all others set, m = 64 and 128, d = 64."""
    draw = Draw("depth example")
    top = FULL - power(62)
    for low in (0, 1, power(63), FULL):
        for y_digits in (power(63), FULL, power(63) + 1):
            for sign in (1, -1):
                y = regular(sign, y_digits, 64, -64)
                yield from in_all_modes(draw, regular(sign, (top << 64) + low, 128, 0), y, 2)
                yield from in_all_modes(draw, regular(sign, top, 64, 0), y, 2)


def one_unread_digit():
    """m = c + 1 and d + n = c + 1: the carry reaches the tie and never passes it."""
    draw = Draw("one unread digit")
    for c, gap, last in product((64, 128), (1, 2, 5, 62), (0, 1)):
        y = regular(1, power(c - gap) + draw.below(2), c + 1 - gap, -gap)
        for p in (2, c - gap, c - 2, c - 1, c):
            half = power(c - p) // 2
            for rest in (max(half - 1, 0), power(c - p) - 1):
                x = regular(1, 2 * (power(c - 1) + rest) + last, c + 1, 0)
                yield draw.case(x, y, p, ADD, draw.of((0, 0, 0, 1, 2, 3)))


def half_in_a_hole():
    """A hole whose first digit is exactly the half: odd and even last digits."""
    draw = Draw("half in a hole")
    for m, more, longer, last in product((63, 64, 65, 128, 192), (-1, 0, 1), (-1, 0, 1), (0, 1)):
        for y_digits in (power(9), power(9) + 1):
            x = regular(1, power(m - 1) + 2 * draw.bits(m - 2) + last, m, 0)
            y = regular(draw.sign(), y_digits, 10, -(m + longer))
            yield draw.case(*either_order(draw, x, y), m + more, ADD, 0)
            two_power = regular(1, power(m - 1), m, 0)
            yield draw.case(two_power, y, m + more, SUBTRACT, draw.of((0, 0, 1, 2, 3)))


def ones_at_the_top():
    """All ones at the top exponent, where a carry that may come is refusal 6."""
    draw = Draw("ones at the top")
    gaps_tried = (0, 1, 63, 64, 65, 128)
    for m, p, gap in product((64, 65, 128, 129), (2, 63, 64, 65, 128, 4096), gaps_tried):
        for sign in (1, -1):
            x = regular(sign, power(m) - 1 - draw.of((0, 0, 1)), m, MOST)
            y = regular(sign, draw.digits(64), 64, MOST - gap)
            yield draw.case(x, y, p, ADD, draw.below(4))


def sides_of_zero():
    """Refusals 7 from both sides of zero: equal columns, then a difference or none."""
    draw = Draw("sides of zero")
    exponents = (LEAST, LEAST + 1, LEAST + 64, LEAST + 100)
    differences = (0, 1, -1, power(63), -power(63), FULL)
    for columns, e, difference in product((1, 2, 3), exponents, differences):
        head = power(64 * columns - 1) + draw.bits(64 * columns - 1)
        tail = draw.bits(64) if difference == 0 else max(0, -difference)
        m = 64 * (columns + 1)
        x = regular(1, head * power(64) + tail, m, e)
        y = regular(1, min(head * power(64) + tail + difference, power(m) - 1), m, e)
        yield draw.case(x, y, draw.of((2, 53, 64, 128)), SUBTRACT)


def deepest():
    """Sums of depth 129, and the same with the last digit 0."""
    draw = Draw("deepest")
    for m in (2, 4096):
        for last in (0, 1):
            x = regular(1, power(m - 1), m, 0)
            y = regular(1, power(4095) + last, 4096, -4097)
            yield from in_all_modes(draw, x, y, 4096, SUBTRACT)
            yield from in_all_modes(draw, x, regular(1, power(4095) + last, 4096, -4096), 4096)


def boundaries():
    """Read parts whose sum ends, after p digits, on or beside zero, the half and all ones.

    Tails of no, one or many digits stay unread below column 0 or 1; the sum
    stands in the middle of the exponent range or at either end of it.
    """
    yield from drawn(Draw("boundaries"), boundary_case, 2400)


def drawn(draw, make, count):
    """So many cases of a maker that gives None where it has none."""
    made = 0
    while made < count:
        case = make(draw)
        if case is not None:
            made += 1
            yield case


def boundary_case(draw):
    """One such sum, or None where the read part of x would not begin with 1."""
    c = 64 * draw.between(1, 2)
    p = draw.of((2, 3, 53, 62, 63, 64, c - 2, c - 1, c))
    gap = draw.of((0, 0, 0, 1, 2, p - 1, p, p + 1, c - 1, c, c + 1, c + 5))
    m = c + draw.of((-1, 0, 0, 1, 1, 2, 64))
    n = max(c - gap + draw.of((-1, 0, 0, 1, 1, 2, 64)), 2)
    y_digits = draw.digits(n)
    y_read = y_digits * power(c) // power(gap + n)
    like = draw.below(2) == 1
    size = draw.of((c, c, c + 1)) if like else draw.of((c, c - 1, c - 2, draw.between(p, c)))
    if size < p:
        return None
    wanted = boundary_sum(draw, p, size - p)
    x_read = wanted - y_read if like else draw.of((y_read + wanted, y_read - wanted))
    if x_read < power(c - 1) or x_read >= power(c):
        return None
    tail = max(m - c, 0)
    x_digits = x_read * power(m) // power(c) + draw.of((0, 0, 1, power(tail) - 1)) % power(tail)
    e = draw.of((0, 0, MOST, clamped(LEAST + c - size + draw.of((-1, 0, 0, 1)))))
    sign = draw.sign()
    x, y = regular(sign, x_digits, m, e), regular(sign if like else -sign, y_digits, n, clamped(e - gap))
    return draw.case(*either_order(draw, x, y), p, ADD, draw.of((0, 0, 0, 1, 2, 3)))


def boundary_sum(draw, p, drop):
    """p digits, then `drop` digits on or beside a boundary."""
    kept = power(p - 1) + draw.of((draw.bits(p - 1), draw.bits(p - 1), 0, power(p - 1) - 1))
    half = power(drop) // 2
    rest = draw.of((0, 0, 1, half - 1, half, half, half + 1, -1, -2)) % power(drop)
    return kept * power(drop) + rest


def stretches():
    """Columns after the first that are all zeros or all ones, and then one that need not be, or the end."""
    yield from drawn(Draw("stretches"), stretch_case, 500)


def stretch_case(draw):
    """One such sum, or None where it has too few digits or the read part of x would not begin with 1."""
    columns = draw.of((2, 3, 3, 4, 5, 12))
    c = 64 * columns
    p = draw.of((2, 3, 24, 53, 53, 60, 61, 62, 63, 64))
    gap = draw.of((0, 0, 0, 1, 5, 63, 64))
    like = draw.below(2) == 1
    first = draw.of((64, 65)) if like else 64 - draw.of((0, 1, 1, 2, 9))
    if first < p:
        return None
    between = draw.of((0, power(c - 128) - 1))
    last = draw.of((0, 1, power(63), FULL - 1, FULL, draw.bits(64)))
    wanted = (boundary_sum(draw, p, first - p) * power(c - 128) + between) * power(64) + last
    m, n = c + draw.of((0, 0, 1, 2, 64)), c - gap + draw.of((0, 0, 1, 2, 64))
    y_digits = draw.digits(n)
    y_read = y_digits * power(c) // power(gap + n)
    x_read = wanted - y_read if like else wanted + y_read
    if x_read < power(c - 1) or x_read >= power(c):
        return None
    tail = power(m - c)
    x_digits = x_read * tail + draw.of((0, 0, 1, tail - 1)) % tail
    e = draw.of((0, 0, 0, MOST, clamped(LEAST + c - 64 * draw.below(3))))
    sign = draw.sign()
    x, y = regular(sign, x_digits, m, e), regular(sign if like else -sign, y_digits, n, clamped(e - gap))
    return draw.case(*either_order(draw, x, y), p, ADD, draw.of((0, 0, 0, 1, 2, 3)))


def ripples():
    """Carries and borrows that a digit many columns down decides."""
    draw = Draw("ripples")
    for _ in range(90):
        p = draw.of((2, 53, 64, 65, 128, 500))
        m = p + 64 * draw.of((2, 3, 9, 20, 40)) + draw.of((-1, 0, 1))
        at = draw.between(p + 1, m - 1)
        gap = draw.of((1, 1, 2, 63, 64, 65))
        n = m - gap
        y_digits = power(n - 1) + draw.bits(n - 1)
        ones = power(m) - power(m - p + draw.below(2)) + power(m - p) - 1
        half = power(m - 1) + power(m - p - 1)
        nothing = power(m - 1) + draw.bits(p - 1) * power(m - p)
        sum_digits = draw.of((ones, half, nothing)) + draw.of((0, 1, -1)) * power(m - at)
        like = draw.below(2) == 1
        x_digits = sum_digits - y_digits if like else sum_digits + y_digits
        e = x_digits.bit_length() - m
        if x_digits <= 0:
            continue
        precision = max(x_digits.bit_length(), 2)
        x = regular(1, x_digits, precision, e)
        y = regular(1 if like else -1, y_digits, n, -gap)
        yield draw.case(*either_order(draw, x, y), p, ADD, draw.of((0, 0, 1, 2, 3)))


def deep_underflow():
    """The larger exponent thousands above the least one, the difference below it."""
    draw = Draw("deep underflow")
    for above in (64, 1000, 3000, 3072, 4000):
        for beyond in (-2, -1, 0, 1, 2, 64):
            head = above + beyond
            m = head + draw.of((1, 2, 64, 90))
            n = m + draw.of((0, 0, 1, -1))
            base = power(head - 1) + draw.bits(head - 2)
            x_digits = base * power(m - head) + draw.bits(m - head)
            y_digits = base * power(n - head) + draw.bits(n - head)
            x, y = (regular(1, digits, length, LEAST + above)
                    for digits, length in ((x_digits, m), (y_digits, n)))
            yield draw.case(x, y, draw.of((2, 53, 64)), SUBTRACT)


def tie_at_the_top():
    """p = c = d at the top exponent: the least value is the tie itself."""
    draw = Draw("tie at the top")
    for c, unread, off, last in product((64, 128), (0, 1, 64), (-1, 0, 1), (0, 1)):
        y = regular(1, power(9) + last, 10, MOST - c - off)
        for tail in sorted({0, power(unread) - 1}):
            x = regular(1, (power(c) - 1) * power(unread) + tail, c + unread, MOST)
            yield from in_all_modes(draw, x, y, c)


def half_read_so_far():
    """The read parts give p digits and then the half, or one beside it; one or two digits unread."""
    draw = Draw("half read so far")
    for c, behind, beside, last in product((64, 128), (1, 2, 11, 62), (-1, 0, 1), (0, 1)):
        p = c - behind
        kept = power(p - 1) + (2 * draw.bits(p - 2) if p > 2 else 0) + last
        wanted = kept * power(c - p) + power(c - p) // 2 + beside
        yield from below_the_columns(draw, c, p, wanted)
        yield from among_the_columns(draw, c, p, wanted)
        yield from equal_exponents(draw, c, p, wanted)


def below_the_columns(draw, c, p, wanted):
    """y, of unlike sign, begins where the columns end: x - y may be just what is read of x."""
    for unread in (1, 2):
        n = draw.of((2, 10, 64))
        x = regular(1, wanted * power(unread) + draw.bits(unread), c + unread, 0)
        y = regular(-1, draw.of((power(n - 1), power(n) - 1)), n, -c - draw.of((0, 0, 0, 1)))
        yield draw.case(*either_order(draw, x, y), p, ADD, 0)


def among_the_columns(draw, c, p, wanted):
    """y, of like sign, begins among the columns, each operand with one or two digits unread."""
    gap = draw.between(2, min(40, c - 2))
    n_read = c - gap
    y_read = power(n_read - 1) + draw.bits(n_read - 1)
    x_read = wanted - y_read
    if x_read < power(c - 1):
        y_read, gap, n_read = 2 + draw.below(2), c - 2, 2
        x_read = wanted - y_read
    if x_read < power(c - 1):
        return
    for x_unread, y_unread in ((1, 1), (1, 2), (2, 1)):
        x = regular(1, x_read * power(x_unread) + draw.bits(x_unread), c + x_unread, 0)
        y = regular(1, y_read * power(y_unread) + draw.bits(y_unread), n_read + y_unread, -gap)
        yield draw.case(*either_order(draw, x, y), p, ADD, 0)


def equal_exponents(draw, c, p, wanted):
    """Unlike operands of one exponent, the smaller first or second, one of them read whole."""
    short = wanted // 4
    kept = min(p, short.bit_length() - 1)
    for m, n in ((c, c + 1), (c + 1, c), (c + 1, c + 2)):
        low = power(c - 1) + draw.bits(c - 3)
        high = min(low + short, power(c) - 1)
        x = regular(1, high * power(m - c) + draw.bits(m - c), m, 0)
        y = regular(-1, low * power(n - c) + draw.bits(n - c), n, 0)
        yield draw.case(*either_order(draw, x, y), max(kept, 2), ADD, draw.of((0, 0, 1, 2, 3)))


def marked():
    """The marked sums of document 01, in all modes."""
    draw = Draw("marked")

    def shown(digits, exponent=0):
        return regular(1, int(digits, 2), len(digits), exponent)

    rows = [
        (shown("101010000010010001"), shown("10001", -9), 4, ADD),
        (shown("101111100101"), shown("11010", -7), 2, ADD),
        (shown("101111100101"), shown("11011", -7), 2, ADD),
        (shown("100"), shown("10", -2), 2, ADD),
        (shown("110"), shown("10", -2), 2, ADD),
        (shown("11"), shown("11"), 2, ADD),
        (shown("10", 1), shown("1111"), 2, SUBTRACT),
        (shown("10"), shown("10"), 2, SUBTRACT),
        (shown("10", MOST), shown("10", MOST), 2, ADD),
        (shown("1111", MOST), shown("10", MOST - 5), 4, ADD),
        (shown("11", LEAST), shown("10", LEAST), 2, SUBTRACT),
        (shown("10"), shown("10", -1000000), 62, ADD),
    ]
    for x, y, precision, operation in rows:
        yield from in_all_modes(draw, x, y, precision, operation)


# Zeros, re-rounding, comparing


def zeros():
    """Zeros with rubbish limbs, alone and beside regular numbers."""
    draw = Draw("zeros")
    for _ in range(300):
        x, y = draw.zero(draw.precision()), draw.zero(draw.precision())
        other = draw.regular(draw.precision(), draw.of((0, 5, MOST, LEAST, draw.between(-99, 99))))
        pair = draw.of(((x, y), (x, other), (other, y)))
        yield draw.case(*pair, draw.precision())


def rerounds():
    """Re-rounding of regular numbers and zeros, with refusal 6 at the top."""
    draw = Draw("rerounds")
    for _ in range(500):
        m, p = draw.precision(), draw.precision()
        e = draw.of((0, 0, MOST, MOST, LEAST, draw.between(-99, 99)))
        x = draw.zero(m) if draw.below(12) == 0 else draw.regular(m, e)
        yield draw.case(x, ABSENT, p, REROUND)


def comparisons():
    """Order of numbers that differ in sign, exponent, one digit, or only in precision."""
    draw = Draw("comparisons")
    for _ in range(500):
        m, n = draw.precision(), draw.precision()
        x = draw.regular(m, draw.of((0, 1, MOST, LEAST)))
        digits = min(max(x_as(x, m, n) + draw.of((0, 0, 0, 1, -1)), power(n - 1)), power(n) - 1)
        alike = regular(-1 if x.negative else 1, digits, n, x.exponent)
        y = draw.of((alike, alike, alike, draw.regular(n, draw.of((0, 1, MOST, LEAST))), draw.zero(n)))
        x = draw.zero(m) if draw.below(12) == 0 else x
        yield draw.case(x, y, 2, COMPARE)


# Refusals 1 to 5


def with_fault(draw, number, fault):
    """The number with one fault of form."""
    if fault == 2:
        wrong = (0, 1, 4097, 2**16, 2**32 + 64, 2**64 - 1)
        return change(number, precision=draw.of(wrong))
    if fault == 3:
        limbs = draw.of((number.limbs + (power(63),), number.limbs[:-1], ()))
        return change(number, limbs=limbs)
    if fault == 4:
        wrong = (1, -1, 2**31 - 1) if number.kind == ZERO else (MOST + 1, LEAST - 1, -2**31, 2**31 - 1)
        return change(number, exponent=draw.of(wrong))
    return bad_digits(draw, number)


def bad_digits(draw, number):
    """Top bit 0, or a spare bit 1; a zero stays as it is."""
    limbs = list(number.limbs)
    spare = 64 * len(limbs) - number.precision
    if number.kind == ZERO or not limbs:
        return number
    if spare and spare < 64 and draw.below(2):
        limbs[0] |= power(draw.below(spare))
    else:
        limbs[-1] &= power(63) - 1
    return change(number, limbs=tuple(limbs))


def change(number, **fields):
    parts = dict(negative=number.negative, kind=number.kind, precision=number.precision,
                 exponent=number.exponent, limbs=number.limbs)
    return Number(**{**parts, **fields})


def an_operand(draw):
    precision = draw.of((2, 53, 63, 64, 65, 100, 128))
    return draw.zero(precision) if draw.below(4) == 0 else draw.regular(precision, draw.between(-5, 5))


def spoiled(draw, number, faults):
    """Later faults first, so that an earlier one is seen on its own terms."""
    for fault in sorted(faults, reverse=True):
        number = with_fault(draw, number, fault)
    return number


def faulty_case(draw, operation, mode, faults):
    """A case with the faults wanted: (refusal, place) pairs."""
    x = spoiled(draw, an_operand(draw), [number for number, place in faults if place == 1])
    y = spoiled(draw, an_operand(draw), [number for number, place in faults if place == 2])
    precision = draw.of((2, 53, 64, 65, 128))
    length = limb_count(precision)
    if (3, 3) in faults:
        length += draw.of((1, -1))
    if (2, 3) in faults:
        precision = draw.of((0, 1, 4097, 2**63, 2**64 - 1))
    if operation == REROUND:
        y = ABSENT
    return Case(operation, mode, precision, length, draw.fill(), x, y)


def places_of(refusal):
    return (1, 2, 3) if refusal in (2, 3) else (1, 2)


def single_faults():
    """Each refusal from 1 to 5 at each place, under each operation."""
    draw = Draw("single faults")
    for operation in (ADD, SUBTRACT, REROUND, COMPARE):
        for mode in (4, 5, 255):
            yield faulty_case(draw, operation, mode, [])
        for refusal in (2, 3, 4, 5):
            for place in places_of(refusal):
                for _ in range(6):
                    yield faulty_case(draw, operation, draw.below(4), [(refusal, place)])


def double_faults():
    """Every two faults at once: the one named must be the first in the fixed order."""
    draw = Draw("double faults")
    every = [(refusal, place) for refusal in (2, 3, 4, 5) for place in places_of(refusal)]
    for pair in combinations(every, 2):
        for operation in (ADD, SUBTRACT, REROUND, COMPARE):
            mode = draw.of((0, 1, 2, 3, 0, 1, 2, 4))
            yield faulty_case(draw, operation, mode, list(pair))


def many_faults():
    """Any number of faults."""
    draw = Draw("many faults")
    every = [(refusal, place) for refusal in (2, 3, 4, 5) for place in places_of(refusal)]
    for _ in range(300):
        faults = [fault for fault in every if draw.below(4) == 0]
        yield faulty_case(draw, draw.below(4), draw.of((0, 1, 2, 3, 3, 200)), faults)


FAMILIES = (
    depth_example, one_unread_digit, half_in_a_hole, half_read_so_far, boundaries,
    ones_at_the_top, tie_at_the_top, sides_of_zero, deep_underflow, ripples, deepest, tiny, gaps,
    cancellations, below_a_power, ties, carries, range_ends, smallest_differences, large, zeros,
    rerounds, comparisons, single_faults, double_faults, many_faults, stretches,
)


def disguised(draw, case):
    """A third of the sums are asked as differences, the second sign turned."""
    if case.operation != ADD or draw.below(3):
        return case
    return case._replace(operation=SUBTRACT, y=turn_sign(case.y))


def by_family():
    """Every case with its family's name and its number there, in a fixed order."""
    draw = Draw("disguise")
    for index, case in enumerate(marked()):
        yield marked.__name__, index, case
    for family in FAMILIES:
        for index, case in enumerate(family()):
            yield family.__name__, index, disguised(draw, case)


def all_cases():
    """Every case, in a fixed order."""
    for _, _, case in by_family():
        yield case


# Of the families named, so many of so many are kept where the output must stay below 1 MiB
THINNED = {
    "boundaries": (2, 3), "gaps": (2, 3), "range_ends": (2, 3), "ties": (2, 3), "cancellations": (2, 3),
    "large": (1, 2),
}


def gate_cases():
    """Sums, differences and re-roundings of every family, about 10,000."""
    for family, index, case in by_family():
        kept, of = THINNED.get(family, (1, 1))
        if case.operation != COMPARE and index % of < kept:
            yield case
