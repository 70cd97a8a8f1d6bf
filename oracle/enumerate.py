"""The ends against the definition of depth, by full enumeration at widths 2 and 3.

For one choice of kinds, signs, exponents and precisions every well-formed
pair is written down. The pairs that agree in the first k columns, bit by bit,
form a class; k columns fix the answer of a class when all its pairs get the
same rounded number, ternary value or refusal. Rounding is done here from a
list of all p-digit numbers, not by the program under test.
"""

import random
import sys
import time
from bisect import bisect_left, bisect_right
from dataclasses import replace
from fractions import Fraction
from itertools import product

from kernel import (
    DOWN, MODES, REGULAR, TOWARD_ZERO, UP, ZERO, Limits, Number, Term, add, compare, depth_bound,
    depth_of, digits_of, digits_ok, ends, fixed, limb_count, outcome, regular, reround, split,
    subtract, zero,
)

SHOWN = 5


class Tally:
    """Counts states and keeps the first differences of each check."""

    def __init__(self):
        self.states = {}
        self.differences = []

    def same(self, check, left, right, *where):
        self.states[check] = self.states.get(check, 0) + 1
        if left != right and len(self.differences) < SHOWN:
            self.differences.append((check, left, right, where))


# Rounding from a list


class Listed:
    """All p-digit numbers in a window of exponents, as whole numbers of 2^floor."""

    def __init__(self, precision, lowest, highest, floor):
        self.even = {}
        self.exponent = {}
        for exponent in range(lowest, highest + 1):
            for digits in range(2 ** (precision - 1), 2**precision):
                amount = digits * 2 ** (exponent - precision - floor)
                for sign in (1, -1):
                    self.even[sign * amount] = digits % 2 == 0
                    self.exponent[sign * amount] = exponent
        self.numbers = sorted(self.even)

    def select(self, amount, mode):
        """Lefevre's definition, read off the list."""
        down = self.numbers[bisect_right(self.numbers, amount) - 1]
        up = self.numbers[bisect_left(self.numbers, amount)]
        if mode == DOWN:
            return down
        if mode == UP:
            return up
        if mode == TOWARD_ZERO:
            return down if abs(down) <= abs(up) else up
        if amount - down == up - amount:
            return down if self.even[down] else up
        return down if amount - down < up - amount else up


class Definition:
    """The answer to an exact amount in units of 2^floor: a tuple to compare."""

    def __init__(self, limits, lowest, highest, floor):
        self.limits, self.window, self.floor = limits, (lowest, highest), floor
        self.lists, self.known = {}, {}

    def answer(self, amount, precision, mode):
        key = (amount, precision, mode)
        if key not in self.known:
            self.known[key] = self.compute(amount, precision, mode)
        return self.known[key]

    def compute(self, amount, precision, mode):
        if amount == 0:
            return ("zero",)
        if precision not in self.lists:
            self.lists[precision] = Listed(precision, *self.window, self.floor)
        listed = self.lists[precision]
        chosen = listed.select(amount, mode)
        exponent = listed.exponent[chosen]
        if exponent > self.limits.most_exponent:
            return (6,)
        if exponent < self.limits.least_exponent:
            return (7,)
        return (chosen, exponent, (chosen > amount) - (chosen < amount))


# Columns as document 01 has them


def bits_of(digits, precision, exponent):
    """Weight of each digit: bi has the weight 2^(exponent - i)."""
    return {exponent - i: digits >> (precision - i) & 1 for i in range(1, precision + 1)}


def columns_of(digits, precision, exponent, top, count, width):
    """The first columns of an operand; None where it has no bit."""
    bits = bits_of(digits, precision, exponent)
    weights = [top - 1 - position for position in range(width * count)]
    return tuple(bits.get(weight) for weight in weights)


class Shape:
    """Kinds, exponents and precisions of a pair, with all its digits and their columns."""

    def __init__(self, places, limits):
        """`places` are (precision, exponent) of the regular operands."""
        self.places, self.limits = places, limits
        self.top = max(exponent for _, exponent in places)
        self.deepest = max(-(-(self.top - e + p) // limits.width) for p, e in places)
        self.operands = [range(2 ** (p - 1), 2**p) for p, _ in places]

    def classes(self, columns):
        """Pairs of digits, put together by what the first columns show."""
        seen = []
        for (precision, exponent), digits in zip(self.places, self.operands):
            seen.append([
                (each, columns_of(each, precision, exponent, self.top, columns, self.limits.width))
                for each in digits
            ])
        groups = {}
        for chosen in pairs_of(seen):
            key = tuple(shown for _, shown in chosen)
            groups.setdefault(key, []).append(tuple(each for each, _ in chosen))
        return list(groups.values())

    def terms(self, signs, digits):
        return [
            Term(sign, each, precision, exponent)
            for sign, each, (precision, exponent) in zip(signs, digits, self.places)
        ]

    def amount(self, signs, digits, floor):
        return sum(
            sign * each * 2 ** (exponent - precision - floor)
            for sign, each, (precision, exponent) in zip(signs, digits, self.places)
        )


def pairs_of(lists):
    if len(lists) == 1:
        return [(each,) for each in lists[0]]
    return [(left, right) for left in lists[0] for right in lists[1]]


def all_signs(count):
    return [(1,), (-1,)] if count == 1 else [(a, b) for a in (1, -1) for b in (1, -1)]


def layers_of(shape):
    """(k, class) for every k up to the deepest column that holds a bit."""
    return [(k, members) for k in range(1, shape.deepest + 1) for members in shape.classes(k)]


def check_shape(tally, shape, definition, precisions, modes=MODES):
    """Every class of a shape, at every k: fixed by the ends exactly when by the definition."""
    asked_for = list(product(precisions, modes))
    for signs, (k, members) in product(all_signs(len(shape.places)), layers_of(shape)):
        amounts = {shape.amount(signs, member, definition.floor) for member in members}
        terms = shape.terms(signs, members[0])
        where = (shape.places, signs, members[0], k)
        check_ends(tally, terms, k, amounts, definition, where)
        for precision, mode in asked_for:
            answers = {definition.answer(amount, precision, mode) for amount in amounts}
            verdict = fixed(terms, k, precision, mode, shape.limits)
            tally.same("fixed", verdict, len(answers) == 1, *where, precision, mode)


def check_ends(tally, terms, k, amounts, definition, where):
    """The ends are the least and the greatest sum of the class, so both are attained."""
    least, greatest, scale = ends(terms, k, definition.limits)
    reach = tuple(end * 2 ** (scale - definition.floor) for end in (least, greatest))
    tally.same("ends attained", reach, (min(amounts), max(amounts)), *where)


def depths_of(shape, signs, definition, precision, mode):
    """The depth of every pair of a shape, by the definition."""
    depths = {}
    for k, members in layers_of(shape):
        amounts = {shape.amount(signs, member, definition.floor) for member in members}
        if len({definition.answer(amount, precision, mode) for amount in amounts}) == 1:
            for member in members:
                depths.setdefault(member, k)
    return depths


def check_answers(tally, shape, definition, precision, mode):
    """Whole answers of add, subtract and re-round, with the depth by definition."""
    floor = definition.floor
    for signs in all_signs(len(shape.places)):
        for member, depth in depths_of(shape, signs, definition, precision, mode).items():
            told = definition.answer(shape.amount(signs, member, floor), precision, mode)
            expected = (told, depth, touched(shape, depth, 0), touched(shape, depth, 1))
            for answer in asked(shape, signs, member, precision, mode):
                tally.same("whole answers", flat(answer, floor, shape.limits), expected,
                           shape.places, signs, member, precision, mode)


def touched(shape, depth, index):
    """Limbs of an operand whose first bit stands in the first columns."""
    if index >= len(shape.places):
        return 0
    precision, exponent = shape.places[index]
    width = shape.limits.width
    tops = [exponent - 1 - width * limb for limb in range(-(-precision // width))]
    return sum(top > shape.top - 1 - width * depth for top in tops)


def asked(shape, signs, member, precision, mode):
    """The answers of every entry point that this pair can be put to."""
    limits = shape.limits
    length = limb_count(precision, limits)
    numbers = [
        regular(sign, each, p, e, limits) for sign, each, (p, e) in zip(signs, member, shape.places)
    ]
    if len(numbers) == 2:
        turned = replace(numbers[1], negative=not numbers[1].negative)
        yield add(*numbers, precision, length, mode, limits)
        yield subtract(numbers[0], turned, precision, length, mode, limits)
        return
    rubbish = zero(signs[0] < 0, 2, split(1, limb_count(2, limits), limits), limits)
    yield reround(numbers[0], precision, length, mode, limits)
    yield add(numbers[0], rubbish, precision, length, mode, limits)
    swapped = add(rubbish, numbers[0], precision, length, mode, limits)
    yield replace(swapped, used1=swapped.used2, used2=swapped.used1)


def flat(answer, floor, limits):
    """An answer in the definition's form, read back from its limbs."""
    counts = (answer.depth, answer.used1, answer.used2)
    number = answer.number
    if answer.refusal:
        clear = not any(answer.limbs) and answer.place == 3 and number == Number(False, ZERO, 2, 0)
        return (answer.refusal,) if clear else ("bad refusal",), *counts
    if number.kind == ZERO:
        clear = not any(answer.limbs) and not number.negative and number.exponent == 0
        return ("zero",) if clear and answer.ternary == 0 else ("bad zero",), *counts
    digits = digits_of(replace(number, limbs=answer.limbs), limits)
    amount = digits * Fraction(2) ** (number.exponent - number.precision - floor)
    signed = -amount if number.negative else amount
    well = digits_ok(number, limits)
    return (signed, number.exponent, answer.ternary) if well else ("bad form",), *counts


# The runs


def definition_for(limits, lowest_exponent, highest_exponent, most_digits, most_target):
    """A definition whose list of numbers reaches past every sum of such operands."""
    lowest = lowest_exponent - most_digits - 1
    highest = highest_exponent + 2
    return Definition(limits, lowest, highest, lowest - most_target)


def narrow_run(tally, width, digits, reach):
    """All pairs with exponents in a tiny range, so that 6 and 7 come often."""
    limits = Limits(width, 2, digits, -reach, reach, far=10**6)
    definition = definition_for(limits, -reach, reach, digits, digits)
    exponents, precisions = range(-reach, reach + 1), range(2, digits + 1)
    places = list(product(precisions, exponents))
    for chosen in [(place,) for place in places] + list(product(places, places)):
        check_shape(tally, Shape(chosen, limits), definition, precisions)


def wide_run(tally, width, digits, gaps):
    """All pairs with every gap and a range that refuses nothing."""
    limits = Limits(width, 2, digits, -100, 100, far=10**6)
    definition = definition_for(limits, -gaps, 0, digits, digits)
    precisions = range(2, digits + 1)
    for m, n, gap in product(precisions, precisions, range(gaps + 1)):
        check_shape(tally, Shape(((m, 0), (n, -gap)), limits), definition, precisions)


def sampled_run(tally, width, digits, reach, count, seed):
    """Chosen shapes of more digits, whole answers included."""
    stream = random.Random(seed)
    definitions = {}
    for _ in range(count):
        least = -stream.randint(1, reach)
        most = least + stream.randint(0, reach)
        limits = Limits(width, 2, digits, least, most, far=10**6)
        if (least, most) not in definitions:
            definitions[least, most] = definition_for(limits, least, most, digits, digits)
        places = [(stream.randint(2, digits), stream.randint(least, most))
                  for _ in range(stream.choice([1, 2, 2, 2]))]
        precision, mode = stream.randint(2, digits), stream.choice(MODES)
        shape = Shape(places, limits)
        check_shape(tally, shape, definitions[least, most], [precision], [mode])
        check_answers(tally, shape, definitions[least, most], precision, mode)


def far_run(tally, width, digits):
    """A shortened gap gives the outcome and depth of the true gap."""
    stream = random.Random(width)
    for _ in range(4000):
        m, n, p = (stream.randint(2, digits) for _ in range(3))
        near = width * limb_count(max(m, p + 2), Limits(width))
        limits = Limits(width, 2, digits, -40, 2, far=near)
        e = stream.randint(0, 2)
        x = regular(stream.choice((1, -1)), stream.randrange(2 ** (m - 1), 2**m), m, e, limits)
        y = regular(stream.choice((1, -1)), stream.randrange(2 ** (n - 1), 2**n), n,
                    e - near - stream.randint(0, 12), limits)
        pair = (x, y) if stream.random() < 0.5 else (y, x)
        for mode in MODES:
            short = add(*pair, p, limb_count(p, limits), mode, limits)
            true = add(*pair, p, limb_count(p, limits), mode, replace(limits, far=10**6))
            tally.same("far operands", short, true, pair, p, mode)


def bound_run(tally, width, digits):
    """The depth, found without document 01's bound, stays within it and is kept by more columns."""
    stream = random.Random(width + 100)
    limits = Limits(width, 2, digits, -9, 9, far=10**6)
    for _ in range(8000):
        terms = [
            Term(stream.choice((1, -1)), stream.randrange(2 ** (m - 1), 2**m), m, stream.randint(-9, 9))
            for m in (stream.randint(2, digits), stream.randint(2, digits))
        ]
        p, mode = stream.randint(2, digits), stream.choice(MODES)
        verdicts = [fixed(terms, k, p, mode, limits) for k in range(1, 16)]
        first = verdicts.index(True) + 1
        tally.same("bound of the depth", first <= depth_bound(terms, p, limits), True, terms, p, mode)
        tally.same("kept by more columns", verdicts, sorted(verdicts), terms, p, mode)
        tally.same("depth", depth_of(terms, p, mode, limits), first, terms, p, mode)


def form_run(tally, width):
    """Check 5 accepts exactly the limbs of some digits with b1 = 1."""
    limits = Limits(width, 2, 7, -3, 3)
    for precision in range(2, 8):
        count = limb_count(precision, limits)
        good = {regular(1, d, precision, 0, limits).limbs for d in range(2 ** (precision - 1), 2**precision)}
        for whole in range(2 ** (width * count)):
            limbs = split(whole, count, limits)
            number = Number(False, REGULAR, precision, 0, limbs)
            tally.same("good form", digits_ok(number, limits), limbs in good, number)


def order_run(tally, width):
    """Compare against the order of exact fractions, zeros included."""
    limits = Limits(width, 2, 4, -3, 3, far=8)
    entries = [(zero(negative, 3, limits=limits), Fraction(0)) for negative in (False, True)]
    for sign, p, e in product((1, -1), (2, 3, 4), (-3, 0, 1, 3)):
        for digits in range(2 ** (p - 1), 2**p):
            value = sign * digits * Fraction(2) ** (e - p)
            entries.append((regular(sign, digits, p, e, limits), value))
    for (x, left), (y, right) in product(entries, entries):
        tally.same("order", compare(x, y, limits), ((left > right) - (left < right), 0, 0), x, y)


def selection_run(tally):
    """Selected numbers against the list of all p-digit numbers."""
    limits = Limits(2, 2, 6, -100, 100)
    definition = Definition(limits, -6, 12, -12)
    for p, whole, mode in product(range(2, 7), range(-600, 601), MODES):
        result = outcome(whole, -3, p, mode, limits)
        amount = result.digits * 2 ** max(result.exponent - p + 12, 0)
        told = (-amount if result.negative else amount, result.exponent, result.ternary)
        expected = definition.answer(whole * 2**9, p, mode)
        tally.same("selection", ("zero",) if result.kind == ZERO else told, expected, whole, p, mode)


SHORT = dict(narrow=(3, 2), wide=(4, 9), sampled=(6, 6, 120))
LONG = dict(narrow=(4, 3), wide=(5, 12), sampled=(7, 7, 400))


def run(sizes):
    tally = Tally()
    selection_run(tally)
    for width in (2, 3):
        form_run(tally, width)
        order_run(tally, width)
        far_run(tally, width, 9)
        bound_run(tally, width, 9)
        narrow_run(tally, width, *sizes["narrow"])
        wide_run(tally, width, *sizes["wide"])
        sampled_run(tally, width, *sizes["sampled"], seed=width)
    return tally


def main(words):
    """`long` as the one word runs more digits, gaps and exponents, in some minutes."""
    start = time.time()
    tally = run(LONG if words == ["long"] else SHORT)
    for check, states in tally.states.items():
        print(f"{check}: {states} states")
    print(f"{sum(tally.states.values())} states in {time.time() - start:.0f} s")
    for difference in tally.differences:
        print("difference:", *difference)
    print("all agree" if not tally.differences else "NOT all agree")
    return 1 if tally.differences else 0


if __name__ == "__main__":
    sys.exit(main(sys.argv[1:]))
