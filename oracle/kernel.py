"""Sums of binary numbers, answered with exact whole numbers.

A second program beside the kernel. It follows document 01 and Lefevre's
definition of rounding, works on whole numbers of any size, and knows no
carries, limbs or early exit. The limb and column width and the ranges are
parameters, so that the definition of depth can be tried in full on tiny
numbers.

    x  = 0.b1 b2 .. bm * 2^E        |column 0|column 1|column 2| ..
    y  =      0.b1 .. bn * 2^(E-d)      d    |b1 ..      .. bn|
"""

from dataclasses import dataclass, replace

NEAREST, TOWARD_ZERO, UP, DOWN = range(4)
MODES = (NEAREST, TOWARD_ZERO, UP, DOWN)
REGULAR, ZERO = 0, 1


@dataclass(frozen=True)
class Limits:
    """The sizes that document 01 fixes; `far` is said at `draw_near`."""

    width: int = 64
    least_precision: int = 2
    most_precision: int = 4096
    least_exponent: int = 1 - 2**30
    most_exponent: int = 2**30 - 1
    far: int = 3 * 4096


BASE = Limits()


@dataclass(frozen=True)
class Number:
    """A sign, a kind, a precision, an exponent and limbs, lowest first."""

    negative: bool
    kind: int
    precision: int
    exponent: int
    limbs: tuple = ()


@dataclass(frozen=True)
class Answer:
    """What a sum returns; `limbs` are the target's at exit, None if untouched."""

    number: Number
    limbs: tuple | None
    ternary: int = 0
    depth: int = 0
    used1: int = 0
    used2: int = 0
    refusal: int = 0
    place: int = 0


@dataclass(frozen=True)
class Term:
    """A regular operand as a signed run of digits: sign * digits * 2^(exponent - precision)."""

    sign: int
    digits: int
    precision: int
    exponent: int

    @property
    def scale(self):
        return self.exponent - self.precision


@dataclass(frozen=True)
class Outcome:
    """What demand 3 compares: the rounded number and ternary value, or the refusal."""

    refusal: int
    negative: bool = False
    kind: int = ZERO
    exponent: int = 0
    digits: int = 0
    ternary: int = 0


NOTHING = Number(False, ZERO, 2, 0)
CANCELLED = Outcome(0)


# Good form


def limb_count(precision, limits=BASE):
    """L = ceil(p / 64)."""
    return -(-precision // limits.width)


def joined(limbs, limits=BASE):
    """The whole number that limbs stand for, lowest first."""
    total = 0
    for limb in reversed(limbs):
        total = total * 2**limits.width + limb
    return total


def split(whole, count, limits=BASE):
    """`count` limbs of a whole number, lowest first."""
    base = 2**limits.width
    return tuple(whole // base**index % base for index in range(count))


def spare(precision, limits=BASE):
    """The number of spare bits at the bottom of the lowest limb."""
    return limb_count(precision, limits) * limits.width - precision


def digits_of(number, limits=BASE):
    """b1 b2 .. bp as a whole number."""
    return joined(number.limbs, limits) >> spare(number.precision, limits)


def limbs_of(digits, precision, limits=BASE):
    """The limbs of a number with these p digits: the spare bits are 0."""
    return split(digits << spare(precision, limits), limb_count(precision, limits), limits)


def regular(sign, digits, precision, exponent, limits=BASE):
    """The regular number sign * 0.digits * 2^exponent."""
    return Number(sign < 0, REGULAR, precision, exponent, limbs_of(digits, precision, limits))


def zero(negative, precision, limbs=None, limits=BASE):
    """The zero of a sign; its limbs may hold anything."""
    if limbs is None:
        limbs = (0,) * limb_count(precision, limits)
    return Number(negative, ZERO, precision, 0, tuple(limbs))


def precision_ok(precision, limits=BASE):
    return limits.least_precision <= precision <= limits.most_precision


def exponent_ok(number, limits=BASE):
    """Check 4: a regular exponent in range, a zero's exponent 0."""
    if number.kind == ZERO:
        return number.exponent == 0
    return limits.least_exponent <= number.exponent <= limits.most_exponent


def digits_ok(number, limits=BASE):
    """Check 5: top bit 1 and spare bits 0; a zero's limbs are never looked at."""
    if number.kind == ZERO:
        return True
    whole = joined(number.limbs, limits)
    length = len(number.limbs) * limits.width
    return whole.bit_length() == length and whole % 2 ** spare(number.precision, limits) == 0


def first_fault(operands, target=None, mode=None, limits=BASE):
    """Checks 1 to 5, number by number, each over first, second, target.

    `operands` are (place, number) pairs, `target` is (precision, slice length).
    Gives (refusal, place), or None.
    """
    sizes = [(place, number.precision, len(number.limbs)) for place, number in operands]
    if target is not None:
        sizes.append((3, *target))
    if mode is not None and mode > DOWN:
        return 1, 0
    for place, precision, _ in sizes:
        if not precision_ok(precision, limits):
            return 2, place
    for place, precision, length in sizes:
        if length != limb_count(precision, limits):
            return 3, place
    for place, number in operands:
        if not exponent_ok(number, limits):
            return 4, place
    for place, number in operands:
        if not digits_ok(number, limits):
            return 5, place
    return None


def turn_sign(number):
    """Takes anything and changes only the sign."""
    return replace(number, negative=not number.negative)


def trim(limbs):
    """The limbs from the lowest non-zero one to the top."""
    lowest = next((index for index, limb in enumerate(limbs) if limb), len(limbs))
    return tuple(limbs[lowest:])


# Selection


def power(exponent):
    return 1 << exponent


def neighbours(whole, scale, precision):
    """The largest p-digit number not above, and the smallest not below.

    Of whole * 2^scale, not zero. Both come as whole numbers of one unit
    2^step, chosen so that the value holds at least 2^(p-1) and fewer than
    2^p of them: then no p-digit number lies strictly between two multiples.
    """
    step = abs(whole).bit_length() + scale - precision
    if step <= scale:
        same = whole * power(scale - step)
        return same, same, step
    unit = power(step - scale)
    return whole // unit, -(-whole // unit), step


def nearer_of(whole, scale, down, up, step):
    """The closer of two neighbours; on a tie the one whose last digit is 0."""
    base = min(scale, step)
    exact = whole * power(scale - base)
    to_down = exact - down * power(step - base)
    to_up = up * power(step - base) - exact
    if to_down != to_up:
        return down if to_down < to_up else up
    return down if down % 2 == 0 else up


def select(whole, scale, precision, mode):
    """The selected p-digit number as (multiple, step), and the ternary value."""
    down, up, step = neighbours(whole, scale, precision)
    if mode == DOWN:
        chosen = down
    elif mode == UP:
        chosen = up
    elif mode == TOWARD_ZERO:
        chosen = min(down, up, key=abs)
    else:
        chosen = nearer_of(whole, scale, down, up, step)
    ternary = 0 if down == up else (-1 if chosen == down else 1)
    return chosen, step, ternary


def outcome(whole, scale, precision, mode, limits=BASE):
    """The answer to an exact value: zero, the selected number, or refusal 6 or 7."""
    if whole == 0:
        return CANCELLED
    chosen, step, ternary = select(whole, scale, precision, mode)
    size = abs(chosen).bit_length()
    if size + step > limits.most_exponent:
        return Outcome(6)
    if size + step < limits.least_exponent:
        return Outcome(7)
    digits = abs(chosen) * power(precision) // power(size)
    return Outcome(0, chosen < 0, REGULAR, size + step, digits, ternary)


# The exact value and its enclosures


def term_of(number, limits=BASE):
    sign = -1 if number.negative else 1
    return Term(sign, digits_of(number, limits), number.precision, number.exponent)


def top_exponent(terms):
    """E, the larger exponent among the regular operands."""
    return max(term.exponent for term in terms)


def draw_near(terms, limits=BASE):
    """Shorten a gap of more than `far` to `far`.

    `far` passes both m and p + 2 by whole columns. Beyond that the lower
    operand stands below every digit of the larger one and below every tie,
    and says only on which side the sum lies; no column that can be asked for
    holds a digit of it. So moving it changes no outcome and no depth, and
    spares whole numbers of 2^31 digits. The check at small widths compares
    both ways.
    """
    top = top_exponent(terms)
    return [replace(term, exponent=max(term.exponent, top - limits.far)) for term in terms]


def total(terms, amounts):
    """The exact sum as a whole number of the lowest weight present, with its scale."""
    lowest = min(term.scale for term in terms)
    whole = sum(amount * power(term.scale - lowest) for term, amount in zip(terms, amounts))
    return whole, lowest


def digits_read(term, top, columns, limits=BASE):
    """How many of an operand's digits stand in the first columns."""
    reach = limits.width * columns - (top - term.exponent)
    return min(max(reach, 0), term.precision)


def span(term, top, columns, limits=BASE):
    """The least and greatest signed digits that agree in the first columns."""
    unread = term.precision - digits_read(term, top, columns, limits)
    unread = min(unread, term.precision - 1)
    least = term.digits // power(unread) * power(unread)
    greatest = least + power(unread) - 1
    ordered = sorted((term.sign * least, term.sign * greatest))
    return ordered[0], ordered[1]


def ends(terms, columns, limits=BASE):
    """The least and greatest sum of pairs that agree in the first columns: (least, greatest, scale)."""
    top = top_exponent(terms)
    spans = [span(term, top, columns, limits) for term in terms]
    least, scale = total(terms, [low for low, _ in spans])
    greatest, _ = total(terms, [high for _, high in spans])
    return least, greatest, scale


def sign_of(whole):
    return (whole > 0) - (whole < 0)


def fixed(terms, columns, precision, mode, limits=BASE):
    """Whether these columns fix the answer.

    Answers rise with the exact value, so equal answers at both ends mean
    equal answers between, save where exact zero lies between the ends.
    """
    least, greatest, scale = ends(terms, columns, limits)
    if sign_of(least) != sign_of(greatest):
        return False
    low = outcome(least, scale, precision, mode, limits)
    return least == greatest or low == outcome(greatest, scale, precision, mode, limits)


def depth_bound(terms, precision, limits=BASE):
    """Document 01's bound on the depth."""
    high = max(terms, key=lambda term: term.exponent)
    if len(terms) == 1:
        return limb_count(high.precision, limits)
    low = terms[1] if high is terms[0] else terms[0]
    gap = high.exponent - low.exponent
    near = limb_count(max(high.precision, precision + 2), limits)
    if gap >= limits.width * near:
        return near
    return limb_count(max(high.precision, gap + low.precision), limits)


def depth_of(terms, precision, mode, limits=BASE):
    """The fewest columns, at least one, that fix the answer."""
    for columns in range(1, depth_bound(terms, precision, limits) + 1):
        if fixed(terms, columns, precision, mode, limits):
            return columns
    raise AssertionError("the depth passes document 01's bound")


def limbs_used(number, top, depth, limits=BASE):
    """The limbs of an operand that its first columns touch."""
    if number.kind == ZERO or depth == 0:
        return 0
    reach = limits.width * depth - (top - number.exponent)
    if reach <= 0:
        return 0
    return min(limb_count(number.precision, limits), limb_count(reach, limits))


# The entry points


def refused(refusal, place):
    return Answer(NOTHING, None, refusal=refusal, place=place)


def zero_answer(negative, precision, limits=BASE):
    number = zero(negative, precision, limits=limits)
    return Answer(number, number.limbs)


def answer_from(result, precision, limits=BASE):
    """An outcome as an answer, not yet with depth and limb counts."""
    cleared = (0,) * limb_count(precision, limits)
    if result.refusal:
        return Answer(NOTHING, cleared, refusal=result.refusal, place=3)
    if result.kind == ZERO:
        return Answer(zero(False, precision, cleared), cleared)
    limbs = limbs_of(result.digits, precision, limits)
    number = Number(result.negative, REGULAR, precision, result.exponent, limbs)
    return Answer(number, limbs, ternary=result.ternary)


def rounded(operands, precision, mode, limits=BASE):
    """The answer for well-formed operands of which one at least is regular."""
    present = [term_of(number, limits) for number in operands if number.kind == REGULAR]
    top = top_exponent(present)
    terms = draw_near(present, limits)
    whole, scale = total(terms, [term.sign * term.digits for term in terms])
    answer = answer_from(outcome(whole, scale, precision, mode, limits), precision, limits)
    depth = depth_of(terms, precision, mode, limits)
    used = [limbs_used(number, top, depth, limits) for number in operands] + [0]
    return replace(answer, depth=depth, used1=used[0], used2=used[1])


def add(x, y, precision, length, mode, limits=BASE):
    """x + y at a target precision; `length` is the target slice's."""
    fault = first_fault([(1, x), (2, y)], (precision, length), mode, limits)
    if fault:
        return refused(*fault)
    if x.kind == ZERO and y.kind == ZERO:
        return zero_answer(x.negative and y.negative, precision, limits)
    return rounded([x, y], precision, mode, limits)


def subtract(x, y, precision, length, mode, limits=BASE):
    """x - y: add with the second sign turned."""
    return add(x, turn_sign(y), precision, length, mode, limits)


def reround(x, precision, length, mode, limits=BASE):
    """x at a target precision; reports as the addition of a zero does."""
    fault = first_fault([(1, x)], (precision, length), mode, limits)
    if fault:
        return refused(*fault)
    if x.kind == ZERO:
        return zero_answer(x.negative, precision, limits)
    return rounded([x], precision, mode, limits)


def compare(x, y, limits=BASE):
    """(order, refusal, place); the two zeros are equal."""
    fault = first_fault([(1, x), (2, y)], limits=limits)
    if fault:
        return 0, *fault
    return order(x, y, limits), 0, 0


def order(x, y, limits=BASE):
    """The sign of x - y, from the exact difference."""
    turned = turn_sign(y)
    terms = [term_of(number, limits) for number in (x, turned) if number.kind == REGULAR]
    if not terms:
        return 0
    terms = draw_near(terms, limits)
    whole, _ = total(terms, [term.sign * term.digits for term in terms])
    return sign_of(whole)
