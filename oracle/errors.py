"""Errors that look reasonable: each as a wrong variant, beside a sum that shows it.

Every variant is a kernel that a careful person might write. The right answer
and the wrong one are printed together, and the two must differ.
"""

import sys
from dataclasses import replace

from kernel import (
    BASE, DOWN, NEAREST, REGULAR, UP, add, answer_from, depth_bound, draw_near, ends, limb_count,
    limbs_used, outcome, power, regular, select, sign_of, term_of, top_exponent, total,
)
from marked import written

WIDTH = BASE.width


def exact_sum(x, y):
    terms = [term_of(x), term_of(y)]
    return total(terms, [term.sign * term.digits for term in terms])


def stopped_at(answer, x, y, depth):
    """An answer with a depth and the limbs that so many columns touch."""
    top = top_exponent([term_of(x), term_of(y)])
    return replace(answer, depth=depth, used1=limbs_used(x, top, depth), used2=limbs_used(y, top, depth))


def in_place_of(right, x, y, whole, scale, precision, mode):
    """Another value rounded; depth and limbs used are as they were."""
    return stopped_at(answer_from(outcome(whole, scale, precision, mode), precision), x, y, right.depth)


def cut(whole, scale, bits):
    """The top bits of a value; everything below taken as clear."""
    drop = max(abs(whole).bit_length() - bits, 0)
    return sign_of(whole) * (abs(whole) // power(drop)), scale + drop


def unread_as_clear(x, y, precision, mode):
    """Taking r and s from the top p + 2 bits and unread limbs as clear."""
    right = add(x, y, precision, limb_count(precision), mode)
    return in_place_of(right, x, y, *cut(*exact_sum(x, y), precision + 2), precision, mode)


def hole_as_exact(x, y, precision, mode):
    """Treating the hole between two mantissas as exactness."""
    high, low = (x, y) if x.exponent >= y.exponent else (y, x)
    gap = high.exponent - low.exponent
    right = add(x, y, precision, limb_count(precision), mode)
    if gap <= max(high.precision, precision):
        return right
    term = term_of(high)
    return in_place_of(right, x, y, term.sign * term.digits, term.scale, precision, mode)


def exponent_not_raised(x, y, precision, mode):
    """Rounding up 0.11..1 without raising the exponent."""
    right = add(x, y, precision, limb_count(precision), mode)
    whole, scale = exact_sum(x, y)
    before = abs(whole).bit_length() + scale
    return replace(right, number=replace(right.number, exponent=before))


def ternary_of_truncated(x, y, precision, mode):
    """Reporting the ternary value against the truncated sum."""
    right = add(x, y, precision, limb_count(precision), mode)
    whole, scale = exact_sum(x, y)
    short, short_scale = cut(whole, scale, precision)
    chosen, step, _ = select(whole, scale, precision, mode)
    base = min(short_scale, step)
    less = chosen * power(step - base) - short * power(short_scale - base)
    return replace(right, ternary=sign_of(less))


def stop_where_either_ends(x, y, precision, mode):
    """Stopping when either mantissa ends in the all-zeros case.

    Columns are read until the digits after the p-th are neither all 0 nor all
    1; where they are all alike, the walk also stops once one operand has no
    more digits. The unread rest is then taken as nothing. With all ones no
    carry can come and that is right; with all zeros a digit may still come.
    """
    terms = [term_of(x), term_of(y)]
    top = top_exponent(terms)
    for columns in range(1, depth_bound(terms, precision) + 1):
        reach = [WIDTH * columns - (top - term.exponent) for term in terms]
        read = [
            term.sign * (term.digits >> max(term.precision - max(seen, 0), 0)
                         << max(term.precision - max(seen, 0), 0))
            for term, seen in zip(terms, reach)
        ]
        whole, scale = total(terms, read)
        known = abs(whole) >> max(top - WIDTH * columns - scale, 0)
        rest = known.bit_length() - precision
        alike = rest < 1 or known % power(rest) in (0, power(rest) - 1)
        ended = any(seen >= term.precision for term, seen in zip(terms, reach))
        if rest >= 1 and (ended or not alike):
            answer = answer_from(outcome(whole, scale, precision, mode), precision)
            return stopped_at(answer, x, y, columns)
    return add(x, y, precision, limb_count(precision), mode)


def larger_exponent_kept(x, y, precision, mode):
    """Keeping the larger operand's exponent after cancellation."""
    right = add(x, y, precision, limb_count(precision), mode)
    return replace(right, number=replace(right.number, exponent=max(x.exponent, y.exponent)))


def sides_of_zero_alike(x, y, precision, mode):
    """Taking two refusals 7, one from each side of zero, as a fixed answer."""
    right = add(x, y, precision, limb_count(precision), mode)
    terms = draw_near([term_of(x), term_of(y)])
    for columns in range(1, right.depth):
        least, greatest, scale = ends(terms, columns)
        if outcome(least, scale, precision, mode) == outcome(greatest, scale, precision, mode):
            return stopped_at(right, x, y, columns)
    return right


def long_tail(sign, length, exponent):
    """0.100..01 * 2^exponent."""
    return regular(sign, power(length - 1) + 1, length, exponent)


LEAST = BASE.least_exponent

SHOWS = [
    # variant, what is summed, x, y, precision, mode
    (unread_as_clear, "P1", written("101010000010010001"), written("10001", -9), 4, NEAREST),
    (unread_as_clear, "0.1 + 0.1*2^-100, marked exact", written("10"), written("10", -100), 53, DOWN),
    (hole_as_exact, "13", written("10"), written("10", -1000000), 62, UP),
    (hole_as_exact, "0.1 - 0.1*2^-70", written("10"), written("10", -70, -1), 2, DOWN),
    (exponent_not_raised, "P6", written("110"), written("10", -2), 2, NEAREST),
    (ternary_of_truncated, "P2", written("101010000010010001"), written("10001", -9), 4, DOWN),
    (ternary_of_truncated, "P5", written("100"), written("10", -2), 2, NEAREST),
    (stop_where_either_ends, "0.1 (64 digits) + 0.10..01*2^-2 (192)",
     regular(1, 1 << 63, 64, 0), long_tail(1, 192, -2), 4, DOWN),
    (stop_where_either_ends, "a tie that a digit in column 3 breaks",
     regular(1, 0b1000 << 60, 64, 0), long_tail(1, 192, -4), 4, NEAREST),
    (larger_exponent_kept, "P8", written("10", 1), written("1111", 0, -1), 2, NEAREST),
    (sides_of_zero_alike, "0.10..01*2^N - 0.1*2^N, 128 digits each",
     long_tail(1, 128, LEAST), regular(-1, power(127), 128, LEAST), 53, NEAREST),
]


def shown(answer):
    """One line for an answer; long runs of digits are shortened."""
    tail = f"ternary {answer.ternary}, depth {answer.depth}"
    if answer.refusal:
        return f"refused {answer.refusal}, {tail}"
    number = answer.number
    if number.kind != REGULAR:
        return f"zero, {tail}"
    whole = 0
    for limb in reversed(number.limbs):
        whole = (whole << WIDTH) + limb
    digits = bin(whole >> (len(number.limbs) * WIDTH - number.precision))[2:]
    if len(digits) > 16:
        digits = digits[:6] + ".." + digits[-6:]
    return f"{'-' if number.negative else ''}0.{digits} * 2^{number.exponent}, {tail}"


def differs(right, wrong, variant):
    """Whether number, ternary value or refusal differ; for the last error the depth."""
    told = [(a.number, a.ternary, a.refusal) for a in (right, wrong)]
    if variant is sides_of_zero_alike:
        return right.depth != wrong.depth
    return told[0] != told[1]


def main():
    failures = 0
    for variant, name, x, y, precision, mode in SHOWS:
        right = add(x, y, precision, limb_count(precision), mode)
        wrong = variant(x, y, precision, mode)
        apart = differs(right, wrong, variant)
        failures += not apart
        print(variant.__doc__.splitlines()[0])
        print(f"  {name}, precision {precision}, mode {mode}")
        print(f"  right: {shown(right)}")
        print(f"  wrong: {shown(wrong)}{'' if apart else '   NO DIFFERENCE'}")
    return 1 if failures else 0


if __name__ == "__main__":
    sys.exit(main())
