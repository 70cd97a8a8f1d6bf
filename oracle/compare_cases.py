"""Comparisons to ask, the same every time: families of cases from seeded streams."""

from itertools import combinations, product

from cases import (
    COMPARE, LARGE, LEAST, LIMBED, MOST, SMALL, Case, Draw, an_operand, change, clamped, either_order,
    spoiled, x_as,
)
from kernel import MODES, ZERO, limb_count, power, regular, turn_sign, zero

FULL = power(64) - 1
EXPONENTS = (0, 0, 1, -1, 63, -64, 5000, MOST, MOST - 1, LEAST, LEAST + 1)


def case(draw, x, y):
    """A comparison; mode and target have no meaning, so anything may stand there."""
    precision = draw.of((0, 1, 2, 64, 4096, 4097, 2**64 - 1))
    return Case(COMPARE, draw.of(MODES + (4, 255)), precision, draw.of((0, 1, 64, 79)), draw.fill(), x, y)


def sign_of(number):
    return -1 if number.negative else 1


def both_orders(draw, x, y):
    yield case(draw, x, y)
    yield case(draw, y, x)


# Accepted comparisons


def anything():
    """Numbers of any sign, size and precision."""
    draw = Draw("compare anything")
    for _ in range(700):
        x = draw.regular(draw.precision(), draw.of(EXPONENTS))
        y = draw.regular(draw.precision(), draw.of(EXPONENTS))
        yield case(draw, x, y)


def tiny():
    """Every pair of numbers of two or three digits at two exponents, in both signs, and two zeros."""
    draw = Draw("compare tiny")
    numbers = [regular(sign, digits, p, e)
               for p in (2, 3) for digits in range(power(p - 1), power(p)) for e in (0, 1) for sign in (1, -1)]
    numbers += [zero(False, 2), zero(True, 3)]
    for x, y in product(numbers, numbers):
        yield case(draw, x, y)


def alike(draw, x, m, n, change_by):
    """x with n digits, its last digit changed."""
    digits = min(max(x_as(x, m, n) + change_by, power(n - 1)), power(n) - 1)
    return regular(sign_of(x), digits, n, x.exponent)


def equal_values():
    """One value with two precisions: the longer ends in zero digits, or in whole zero limbs."""
    draw = Draw("compare equal values")
    for _ in range(350):
        m = draw.precision()
        n = m + draw.of((0, 1, 2, 63, 64, 65, 128, 129, 640))
        x = draw.regular(m, draw.of(EXPONENTS))
        yield case(draw, *either_order(draw, x, alike(draw, x, m, n, 0)))


def neighbours():
    """Numbers that differ in their last digit, of one precision or of two."""
    draw = Draw("compare neighbours")
    for _ in range(500):
        m = draw.precision()
        n = draw.of((m, m, m + 1, m + 63, m + 64, m + 65, m + 200, max(m - 1, 2), max(m - 64, 2)))
        x = draw.regular(m, draw.of(EXPONENTS))
        y = alike(draw, x, m, n, draw.of((1, -1, 1, -1, 2, power(draw.below(n)))))
        yield case(draw, *either_order(draw, x, y))


def one_digit():
    """Two numbers that differ in one digit, at every place of a limb and about its ends."""
    draw = Draw("compare one digit")
    for precision in (64, 65, 128, 129, 192, 200):
        for place in sorted({0, 1, 2, 62, 63, 64, 65, 126, 127, 128, 129, precision - 2}):
            if place > precision - 2:
                continue
            digits = draw.of((power(precision - 1) + draw.bits(precision - 1), power(precision) - 1))
            other = digits ^ power(place)
            sign, e = draw.sign(), draw.of(EXPONENTS)
            yield from both_orders(draw, regular(sign, digits, precision, e), regular(sign, other, precision, e))


def exponents():
    """The exponent decides against the digits: neighbours, far apart, and from end to end of the range."""
    draw = Draw("compare exponents")
    pairs = [(0, 1), (-1, 0), (0, 64), (1, 5000), (-(2**29), 2**29), (LEAST, LEAST + 1), (MOST - 1, MOST),
             (LEAST, MOST), (LEAST, 0), (0, MOST)]
    for (low, high), sign in product(pairs, (1, -1)):
        for m, n in ((2, 2), (64, 64), (65, 3), (3, 129)):
            x = regular(sign, power(m) - 1, m, low)
            y = regular(sign, power(n - 1), n, high)
            yield from both_orders(draw, x, y)
            yield case(draw, turn_sign(x), y)


def range_ends():
    """Both ends of the exponent range: equal, neighbours, and of two signs."""
    draw = Draw("compare range ends")
    for _ in range(300):
        m = draw.precision()
        n = draw.of((m, m, draw.precision()))
        x = draw.regular(m, draw.of((MOST, LEAST)))
        y = draw.of((alike(draw, x, m, n, draw.of((0, 1, -1))), turn_sign(alike(draw, x, m, n, 0)),
                     draw.regular(n, draw.of((MOST, LEAST)))))
        yield case(draw, *either_order(draw, x, y))


def zeros():
    """Zeros of both signs with rubbish limbs, beside each other and beside regular numbers."""
    draw = Draw("compare zeros")
    for first, second in product((False, True), (False, True)):
        for _ in range(20):
            m, n = draw.precision(), draw.precision()
            yield case(draw, zero(first, m, draw.limbs(limb_count(m))), zero(second, n, draw.limbs(limb_count(n))))
    for sign, first in product((1, -1), (False, True)):
        for e in (0, 1, -1, MOST, LEAST):
            for _ in range(6):
                m, n = draw.precision(), draw.precision()
                filled = draw.of((draw.limbs(limb_count(n)), (FULL,) * limb_count(n), (0,) * limb_count(n)))
                yield from both_orders(draw, regular(sign, draw.digits(m), m, e), zero(first, n, filled))


def lengths():
    """Every number of limbs from 1 to 64 against others: equal, and apart in the last digit."""
    draw = Draw("compare lengths")
    for limbs in range(1, 65):
        m = 64 * limbs - draw.of((0, 0, 1, 62))
        other = draw.between(1, 64)
        n = min(max(64 * other - draw.of((0, 1, 60)), 2), 4096)
        x = draw.regular(m, draw.of((0, 0, MOST, LEAST)))
        yield case(draw, *either_order(draw, x, alike(draw, x, m, n, draw.of((0, 0, 1, -1)))))
        yield case(draw, *either_order(draw, x, alike(draw, x, m, m, draw.of((0, 1, -1)))))


def large():
    """Precisions up to 4,096 that agree in all digits of the shorter."""
    draw = Draw("compare large")
    for _ in range(60):
        m, n = draw.of(LARGE), draw.of(LARGE + SMALL + LIMBED)
        x = draw.regular(m, 0)
        yield case(draw, *either_order(draw, x, alike(draw, x, m, n, draw.of((0, 0, 1, -1)))))


# Refusals 2 to 5

EVERY = [(refusal, place) for refusal in (2, 3, 4, 5) for place in (1, 2)]


def faulty(draw, faults):
    x = spoiled(draw, an_operand(draw), [number for number, place in faults if place == 1])
    y = spoiled(draw, an_operand(draw), [number for number, place in faults if place == 2])
    return case(draw, x, y)


def single_faults():
    """Each refusal from 2 to 5 at each place."""
    draw = Draw("compare single faults")
    for fault in EVERY:
        for _ in range(40):
            yield faulty(draw, [fault])


def double_faults():
    """Every two faults at once: the one named must be the first in the fixed order."""
    draw = Draw("compare double faults")
    for pair in combinations(EVERY, 2):
        for _ in range(12):
            yield faulty(draw, list(pair))


def many_faults():
    """Any number of faults."""
    draw = Draw("compare many faults")
    for _ in range(300):
        yield faulty(draw, [fault for fault in EVERY if draw.below(2) == 0])


def precisions():
    """2: the precisions about both limits, with as many limbs as they would take."""
    draw = Draw("compare precisions")
    for precision in (0, 1, 2, 3, 63, 64, 65, 4095, 4096, 4097, 4160, 2**16, 2**32, 2**63, 2**64 - 1):
        limbs = limb_count(min(precision, 4160))
        number = regular(1, power(63) if limbs == 1 else 1, 64, 0)
        number = change(number, precision=precision, limbs=(0,) * (limbs - 1) + (power(63),) if limbs else ())
        yield from both_orders(draw, number, draw.regular(64, 0))


def limb_lengths():
    """3: no limb, one too few, one too many, and as many as the precision asks."""
    draw = Draw("compare limb lengths")
    for precision, more in product((2, 64, 65, 128, 129, 4096), (-64, -2, -1, 0, 1, 2)):
        number = draw.of((draw.regular(precision, 0), draw.zero(precision)))
        length = max(limb_count(precision) + more, 0)
        limbs = ((0,) * max(length - len(number.limbs), 0) + number.limbs)[-length:] if length else ()
        yield from both_orders(draw, change(number, limbs=limbs), draw.regular(53, 0))


def exponent_limits():
    """4: about both ends of the range and of 32 bits, of regular numbers and of zeros."""
    draw = Draw("compare exponent limits")
    for e in (LEAST - 2, LEAST - 1, LEAST, LEAST + 1, -2, -1, 0, 1, 2, MOST - 1, MOST, MOST + 1, MOST + 2,
              -2**31, 1 - 2**31, 2**31 - 1):
        for number in (draw.regular(53, 0), draw.zero(64), draw.regular(128, 0)):
            yield from both_orders(draw, change(number, exponent=e), draw.regular(64, clamped(e)))


def spare_bits():
    """5: each spare bit of the lowest limb, the top bit, and the same limbs in a zero."""
    draw = Draw("compare spare bits")
    for precision in (2, 53, 63, 65, 100, 127, 129):
        number = draw.regular(precision, 0)
        spare = 64 * len(number.limbs) - precision
        for bit in sorted({0, 1, spare // 2, spare - 1, spare}):
            if bit > spare:
                continue
            limbs = list(number.limbs)
            limbs[0] ^= power(bit)
            limbs[-1] |= power(63)
            yield from both_orders(draw, change(number, limbs=tuple(limbs)), draw.regular(precision, 0))
            yield case(draw, change(number, kind=ZERO, exponent=0, limbs=tuple(limbs)), draw.regular(precision, 0))
        low = change(number, limbs=number.limbs[:-1] + (number.limbs[-1] % power(63),))
        yield from both_orders(draw, low, number)


FAMILIES = (
    anything, tiny, equal_values, neighbours, one_digit, exponents, range_ends, zeros, lengths, large,
    single_faults, double_faults, many_faults, precisions, limb_lengths, exponent_limits, spare_bits,
)


def comparisons():
    """Every comparison, in a fixed order."""
    for family in FAMILIES:
        yield from family()
