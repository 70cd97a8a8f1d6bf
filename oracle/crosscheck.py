"""Second opinions on the independent program, at width 64.

Selection is compared with Python's own rounding of fractions, of doubles and
of singles; sums with the machine's addition of doubles; depths with
witnesses: pairs that agree in one column fewer and get another answer, and
chosen pairs that agree in the depth and get the same. Lines go round, and the
desk's groups stand alone.
"""

import math
import struct
import sys
import time
from collections import Counter
from dataclasses import replace
from fractions import Fraction

import desk_cases
import double_cases
import line_cases
from cases import ADD, COMPARE, REROUND, SUBTRACT, Draw, all_cases
from desk import desk, lines_of
from doubles import ABOVE, BELOW, EXACT, enclosing_pair, from_double, rounded_to_double, to_double
from kernel import (
    BASE, DOWN, MODES, NEAREST, REGULAR, TOWARD_ZERO, UP, ZERO, add, digits_of, digits_ok,
    limb_count, outcome, power, regular, reround, select, subtract, term_of, turn_sign,
)
from lines import line_of, read_line, write_line

COUNT = Counter()
MIRROR = {NEAREST: NEAREST, TOWARD_ZERO: TOWARD_ZERO, UP: DOWN, DOWN: UP}


def same(check, left, right, *where):
    COUNT[check] += 1
    if left != right:
        sys.exit(f"difference in {check}: {left} and {right} at {where}")


def sign_of(value):
    return (value > 0) - (value < 0)


# Selection


def by_fractions(value, precision, mode):
    """Python's floor, ceil and half-even round of a fraction in units of the last digit."""
    size = abs(value).numerator.bit_length() - value.denominator.bit_length()
    while abs(value) >= Fraction(2) ** size:
        size += 1
    while abs(value) < Fraction(2) ** (size - 1):
        size -= 1
    unit = Fraction(2) ** (size - precision)
    rule = {NEAREST: round, TOWARD_ZERO: math.trunc, UP: math.ceil, DOWN: math.floor}[mode]
    chosen = rule(value / unit) * unit
    return chosen, sign_of(chosen - value)


def exact_value(whole, scale):
    return whole * Fraction(2) ** scale


def check_fractions():
    draw = Draw("fractions")
    for _ in range(3000):
        whole = draw.sign() * draw.digits(draw.precision())
        scale, precision = draw.between(-90, 90), draw.precision()
        for mode in MODES:
            chosen, step, ternary = select(whole, scale, precision, mode)
            told = (exact_value(chosen, step), ternary)
            same("selection by fractions", told, by_fractions(exact_value(whole, scale), precision, mode),
                 whole, scale, precision, mode)


def quotient(whole, scale):
    """Python's correctly rounded quotient of whole numbers."""
    return whole * power(scale) / 1 if scale >= 0 else whole / power(-scale)


def bits_of(double):
    return struct.unpack(">Q", struct.pack(">d", double))[0]


def double_of(bits):
    return struct.unpack(">d", struct.pack(">Q", bits))[0]


def directed(value, near, mode):
    """The double that a mode selects, from the nearest one and its neighbours."""
    error = sign_of(Fraction(near) - value)
    if mode == NEAREST or error == 0:
        return near
    toward_zero = DOWN if value > 0 else UP
    wanted = toward_zero if mode == TOWARD_ZERO else mode
    if wanted == DOWN:
        return near if error < 0 else math.nextafter(near, -math.inf)
    return near if error > 0 else math.nextafter(near, math.inf)


def check_doubles():
    """Numbers inside the range, in all modes, against Python's doubles."""
    case_of = {0: EXACT, -1: BELOW, 1: ABOVE}
    for operation, mode, number in double_cases.numbers():
        if operation != double_cases.TO_DOUBLE or to_double(number, mode).refusal or number.kind == ZERO:
            continue
        term = term_of(number)
        value = exact_value(term.sign * term.digits, term.scale)
        if abs(value) >= Fraction(sys.float_info.max) or abs(value) < Fraction(sys.float_info.min):
            continue
        expected = directed(value, quotient(term.sign * term.digits, term.scale), mode)
        told = rounded_to_double(number, mode)
        same("doubles", (told.bits, told.case),
             (bits_of(expected), case_of[sign_of(Fraction(expected) - value)]), number, mode)


def check_double_range():
    """Refusals 12 and 13 against the sizes themselves, by fractions."""
    for operation, mode, number in double_cases.numbers():
        if operation != double_cases.TO_DOUBLE or number.kind == ZERO or abs(number.exponent) > 2000:
            continue
        told = to_double(number, mode)
        if told.refusal in (1, 2, 3, 4, 5):
            continue
        term = term_of(number)
        chosen, _ = by_fractions(exact_value(term.sign * term.digits, term.scale), 53, mode)
        above = abs(chosen) > Fraction(sys.float_info.max)
        below = abs(chosen) < Fraction(sys.float_info.min)
        expected = 12 if above else 13 if below else 0
        same("range of doubles", told.refusal, expected, number, mode)


def check_pairs():
    """The pair encloses, and closes exactly when the number is a double."""
    for operation, _, number in double_cases.numbers():
        if operation != double_cases.PAIR:
            continue
        pair = enclosing_pair(number)
        if pair.refusal:
            same("pairs", (pair.lower, pair.upper), (0, 0), number)
            continue
        if number.kind == ZERO:
            same("pairs", (pair.lower, pair.upper), (number.negative << 63,) * 2, number)
            continue
        term = term_of(number)
        value = exact_value(term.sign * term.digits, term.scale)
        lower, upper = double_of(pair.lower), double_of(pair.upper)
        apart = upper == math.nextafter(lower, math.inf) if lower != upper else Fraction(lower) == value
        same("pairs", (Fraction(lower) <= value <= Fraction(upper), apart), (True, True), number)


def check_from_doubles():
    for bits, length, _ in double_cases.doubles():
        told, double = from_double(bits, length), double_of(bits)
        if told.refusal:
            same("from doubles", length == 1 and math.isfinite(double), False, bits)
            continue
        part, exponent = math.frexp(abs(double))
        if double == 0:
            same("from doubles", (told.number.kind, told.number.negative, told.limbs),
                 (ZERO, math.copysign(1, double) < 0, (0,)), bits)
            continue
        same("from doubles", (told.number.exponent, Fraction(digits_of(told.number), power(53))),
             (exponent, Fraction(part)), bits)
        if abs(double) >= sys.float_info.min:
            for mode in MODES:
                same("double and back", (to_double(told.number, mode).bits, to_double(told.number, mode).case),
                     (bits, EXACT), bits)


def check_singles():
    """Nearest at precision 24 against the machine's narrowing of doubles."""
    draw = Draw("singles")
    for _ in range(4000):
        number = draw.regular(53, draw.between(-100, 100))
        term = term_of(number)
        double = quotient(term.sign * term.digits, term.scale)
        narrowed = struct.unpack(">f", struct.pack(">f", double))[0]
        chosen, step, ternary = select(term.sign * term.digits, term.scale, 24, NEAREST)
        same("singles", (exact_value(chosen, step), ternary),
             (Fraction(narrowed), sign_of(Fraction(narrowed) - Fraction(double))), number)


def check_machine_sums():
    """Sums of doubles at precision 53 against the machine's."""
    draw = Draw("machine sums")
    for _ in range(6000):
        x = draw.regular(53, draw.between(-60, 60))
        y = draw.regular(53, draw.between(-60, 60))
        left, right = (double_of(to_double(number, NEAREST).bits) for number in (x, y))
        for operation, total in ((add, left + right), (subtract, left - right)):
            answer = operation(x, y, 53, 1, NEAREST)
            exact = Fraction(left) + Fraction(right) if operation is add else Fraction(left) - Fraction(right)
            told = double_of(to_double(answer.number, NEAREST).bits)
            same("machine sums", (told, answer.ternary), (total, sign_of(Fraction(total) - exact)), x, y)


# Depth by witnesses


def visible(term, top, columns):
    """The digits of an operand in the first columns, by weight."""
    shown = []
    for index in range(1, term.precision + 1):
        weight = term.exponent - index
        if weight < top - BASE.width * columns:
            break
        shown.append((weight, term.digits >> (term.precision - index) & 1))
    return shown


def hidden(term, top, columns):
    """How many of an operand's digits after b1 no column shows."""
    reach = BASE.width * columns - (top - term.exponent)
    return min(max(term.precision - max(reach, 0), 0), term.precision - 1)


def completed(term, count, tail):
    return replace(term, digits=(term.digits >> count << count) + tail)


def asked(terms, precision, mode):
    """The answer to a pair, from exact fractions of one unit."""
    lowest = min(term.scale for term in terms)
    whole = sum(term.sign * term.digits << (term.scale - lowest) for term in terms)
    return outcome(whole, lowest, precision, mode)


def completions(draw, terms, columns):
    """Pairs that agree in the first columns: all 0, all 1, mixtures, random."""
    top = max(term.exponent for term in terms)
    counts = [hidden(term, top, columns) for term in terms]
    tails = [(0, power(count) - 1, draw.bits(count), draw.runs(count) if count else 0) for count in counts]
    for first in tails[0]:
        for second in (tails[1] if len(terms) == 2 else (0,)):
            chosen = (first, second)
            yield [completed(term, count, tail) for term, count, tail in zip(terms, counts, chosen)]


def check_witnesses():
    """For every sum: pairs that agree in its depth, and in one column fewer."""
    draw = Draw("witnesses")
    for index, case in enumerate(all_cases()):
        answer = answer_to(case)
        if answer is None or answer.depth == 0 or max(case.x.precision, case.precision) > 1100 and index % 5:
            continue
        terms = regular_terms(case)
        exponents = [term.exponent for term in terms]
        if max(exponents) - min(exponents) > 20000:
            continue
        told = asked(terms, case.precision, case.mode)
        same("refusals", told.refusal, answer.refusal, case)
        for pair in completions(draw, terms, answer.depth):
            same("same answer at the depth", asked(pair, case.precision, case.mode), told, case)
        if answer.depth > 1:
            check_other_answer(draw, case, terms, answer.depth - 1, told)


def check_other_answer(draw, case, terms, columns, told):
    """Among the pairs that agree in one column fewer, one gets another answer."""
    top = max(term.exponent for term in terms)
    witness = None
    for pair in completions(draw, terms, columns):
        if asked(pair, case.precision, case.mode) != told:
            witness = pair
            break
    same("another answer before it", witness is not None, True, case)
    for term, other in zip(terms, witness):
        number = regular(other.sign, other.digits, other.precision, other.exponent)
        same("witness well formed", digits_ok(number), True, case)
        same("witness agrees", visible(other, top, columns), visible(term, top, columns), case)


def regular_terms(case):
    second = turn_sign(case.y) if case.operation == SUBTRACT else case.y
    present = [case.x] if case.operation == REROUND else [case.x, second]
    return [term_of(number) for number in present if number.kind == REGULAR]


def answer_to(case):
    target = (case.precision, case.length, case.mode)
    if case.operation == COMPARE:
        return None
    if case.operation == REROUND:
        return reround(case.x, *target)
    return (add if case.operation == ADD else subtract)(case.x, case.y, *target)


# What document 01 says of all sums


def check_laws():
    """Order of operands, mirrored signs, the bound 129, and ternary 0 only when all is read."""
    for case in all_cases():
        answer = answer_to(case)
        if answer is None:
            continue
        same("depth at most 129", answer.depth <= 129, True, case)
        target = (case.precision, case.length)
        if case.operation == REROUND:
            continue
        second = turn_sign(case.y) if case.operation == SUBTRACT else case.y
        if answer.refusal not in (2, 3, 4, 5):
            check_turned(case, second, answer, target)
        if answer.depth and not answer.refusal and answer.ternary == 0:
            check_all_read(case, answer)


def check_turned(case, second, answer, target):
    swapped = add(second, case.x, *target, case.mode)
    same("operands exchanged", replace(swapped, used1=swapped.used2, used2=swapped.used1), answer, case)
    if answer.refusal == 1:
        return
    turned = add(turn_sign(case.x), turn_sign(second), *target, MIRROR[case.mode])
    same("signs mirrored", (turned.depth, turned.refusal, turned.limbs, turned.ternary),
         (answer.depth, answer.refusal, answer.limbs, -answer.ternary), case)


def check_all_read(case, answer):
    terms = regular_terms(case)
    top = max(term.exponent for term in terms)
    for term in terms:
        lowest = term.exponent - term.precision
        same("ternary 0 has read all", lowest >= top - BASE.width * answer.depth, True, case)


def check_far():
    """A gap shortened against the gap itself, at width 64."""
    draw = Draw("far")
    exact = replace(BASE, far=2**26)
    for gap in (12289, 12290, 12351, 12352, 12353, 20000, 100000, 10**6, 2**23):
        for _ in range(6):
            m, n, p = draw.precision(), draw.precision(), draw.of((2, 53, 64, 65, 4096))
            x, y = draw.regular(m, 0), draw.regular(n, -gap)
            mode = draw.of(MODES)
            target = (p, limb_count(p), mode)
            same("far operands", add(x, y, *target), add(x, y, *target, exact), x, y, target)


# Lines and the desk


def check_lines():
    draw = Draw("round trips")
    for number, room, _ in line_cases.to_write():
        told = write_line(number, room)
        if told.refusal:
            continue
        read = read_line(told.text, limb_count(number.precision))
        expected = number if number.kind == REGULAR else replace(number, limbs=(0,) * len(number.limbs))
        same("written and read", (read.number, read.refusal), (expected, 0), number)
    for line, length, _ in line_cases.to_read():
        read = read_line(line, length)
        if read.refusal == 0:
            told = write_line(read.number, len(line))
            same("read and written", told.text, line, line)
    for _ in range(3000):
        line, precision = line_cases.sound(draw)
        broken = line_cases.with_byte(line, draw.below(len(line)), draw.of(b"0123456789abcdefABCDEFg\n\r x"))
        read = read_line(broken, limb_count(precision))
        same("changed lines", read.refusal != 0 or line_of(read.number) == broken, True, broken)


def check_desk():
    """Whole groups print alone what they print together."""
    groups = list(desk_cases.sums_as_groups(9)) + list(desk_cases.faulty_groups()) + list(desk_cases.long_lines())
    same("groups alone", b"".join(desk(group) for group in groups), desk(b"".join(groups)))
    for group in groups:
        same("three lines", len(lines_of(group)), 3, group)
        lines = desk(group).count(b"\n")
        same("printed lines", lines, 1 if desk(group).startswith(b"ee") else 2, group)


def main():
    start = time.time()
    for check in (check_fractions, check_doubles, check_double_range, check_pairs, check_from_doubles,
                  check_singles, check_machine_sums, check_far, check_laws, check_witnesses,
                  check_lines, check_desk):
        check()
    for check, states in COUNT.items():
        print(f"{check}: {states} states")
    print(f"{sum(COUNT.values())} states in {time.time() - start:.0f} s")
    print("all agree")


if __name__ == "__main__":
    main()
