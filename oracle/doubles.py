"""Numbers to doubles and back, doubles stated by their bits."""

from dataclasses import dataclass

from kernel import (
    DOWN, NOTHING, UP, ZERO, Number, first_fault, power, regular, select, term_of, zero,
)

EXACT, BELOW, ABOVE, REFUSED = range(4)
DOUBLE_PRECISION = 53
LARGEST_EXPONENT = 1024  # of 0.b1 .. b53 * 2^e
SMALLEST_EXPONENT = -1021


@dataclass(frozen=True)
class ToDouble:
    case: int
    bits: int = 0
    refusal: int = 0
    place: int = 0


@dataclass(frozen=True)
class Pair:
    lower: int = 0
    upper: int = 0
    refusal: int = 0
    place: int = 0


@dataclass(frozen=True)
class FromDouble:
    """`limbs` are the target's at exit, None if untouched."""

    number: Number
    limbs: tuple | None
    refusal: int = 0
    place: int = 0


def packed(negative, digits, exponent):
    """The bits of the normal double with these 53 digits and exponent."""
    field = exponent + 1022
    return (negative << 63) + (field << 52) + (digits - power(52))


def rounded_to_double(number, mode):
    """Selected with 53 bits and unbounded exponent; only then is the range judged."""
    term = term_of(number)
    chosen, step, ternary = select(term.sign * term.digits, term.scale, DOUBLE_PRECISION, mode)
    size = abs(chosen).bit_length()
    if size + step > LARGEST_EXPONENT:
        return ToDouble(REFUSED, refusal=12)
    if size + step < SMALLEST_EXPONENT:
        return ToDouble(REFUSED, refusal=13)
    digits = abs(chosen) * power(DOUBLE_PRECISION) // power(size)
    case = {0: EXACT, -1: BELOW, 1: ABOVE}[ternary]
    return ToDouble(case, packed(chosen < 0, digits, size + step))


def to_double(number, mode):
    """Checks 1 to 5, then the selected double; a zero gives the exact zero of its sign."""
    fault = first_fault([(1, number)], mode=mode)
    if fault:
        return ToDouble(REFUSED, 0, *fault)
    if number.kind == ZERO:
        return ToDouble(EXACT, number.negative << 63)
    return rounded_to_double(number, mode)


def enclosing_pair(number):
    """The down answer and the up answer; under any refusal both ends are +0."""
    fault = first_fault([(1, number)])
    if fault:
        return Pair(0, 0, *fault)
    lower, upper = to_double(number, DOWN), to_double(number, UP)
    for end in (lower, upper):
        if end.refusal:
            return Pair(0, 0, end.refusal, end.place)
    return Pair(lower.bits, upper.bits)


def from_double(bits, length):
    """Exact at precision 53, subnormals normalised; 3 for the target, then 14."""
    if length != 1:
        return FromDouble(NOTHING, None, 3, 3)
    negative, field, fraction = bits >> 63 == 1, bits >> 52 & 0x7FF, bits % power(52)
    if field == 0x7FF:
        return FromDouble(NOTHING, None, 14, 1)
    if field == 0 and fraction == 0:
        number = zero(negative, DOUBLE_PRECISION)
        return FromDouble(number, number.limbs)
    whole = fraction + (power(52) if field else 0)
    size = whole.bit_length()
    exponent = size + max(field, 1) - 1075
    digits = whole * power(DOUBLE_PRECISION - size)
    number = regular(-1 if negative else 1, digits, DOUBLE_PRECISION, exponent)
    return FromDouble(number, number.limbs)
