"""The readings of document 01 as answers written by hand."""

from desk import desk
from doubles import ABOVE, BELOW, EXACT, REFUSED, ToDouble, enclosing_pair, from_double, to_double
from kernel import (
    BASE, DOWN, MODES, NEAREST, NOTHING, REGULAR, TOWARD_ZERO, UP, Number, add, compare, limb_count,
    power, regular, reround, trim, turn_sign, zero,
)
from lines import line_of, read_line, write_line

FIRST = b"000004000000018000000000000000\n"
SECOND = b"000002fffffffc8000000000000000\n"
WHOLE = FIRST + SECOND + b"00000400\n"
PRINTED = b"000004000000018000000000000000\nff00010101\n"
LARGEST = 0x7FEFFFFFFFFFFFFF
SMALLEST = 0x0010000000000000
MINUS_ZERO = 1 << 63


def same(told, expected):
    assert told == expected, (told, expected)


def refusal_of(answer):
    return answer.refusal, answer.place


def check_checks():
    """1 to 5 number by number; a length is no look at a zero's limbs."""
    good = regular(1, 2, 2, 0)
    low_precision = Number(False, REGULAR, 1, 0, (1 << 63,))
    no_limbs = Number(False, REGULAR, 2, 0, ())
    same(refusal_of(add(no_limbs, low_precision, 2, 1, NEAREST)), (2, 2))
    same(refusal_of(add(no_limbs, good, 1, 1, NEAREST)), (2, 3))
    same(refusal_of(add(low_precision, good, 2, 1, 4)), (1, 0))
    same(refusal_of(add(good, good, 2, 2, NEAREST)), (3, 3))
    same(refusal_of(add(zero(False, 64, ()), good, 2, 1, NEAREST)), (3, 1))
    rubbish = add(zero(True, 64, (12345,)), zero(True, 65, (1, 2)), 65, 2, UP)
    same((rubbish.refusal, rubbish.number.negative, rubbish.limbs, rubbish.depth), (0, True, (0, 0), 0))
    same(refusal_of(add(Number(False, 1, 2, 1, (0,)), good, 2, 1, DOWN)), (4, 1))
    same(compare(low_precision, no_limbs), (0, 2, 1))
    same(reround(zero(True, 9), 64, 1, UP).number.negative, True)
    same(turn_sign(low_precision), Number(True, REGULAR, 1, 0, (1 << 63,)))
    same((trim(()), trim((0, 0)), trim((0, 5, 0))), ((), (), (5, 0)))


def check_counts():
    """Limbs used come from the true gap; re-rounding reports (limbs of x, 0)."""
    x, y = regular(1, power(127) + 1, 128, BASE.most_exponent), regular(1, 2, 2, BASE.least_exponent)
    told = add(y, x, 200, 4, DOWN)
    same((told.depth, told.used1, told.used2, told.ternary), (2, 0, 2, -1))
    told = reround(x, 2, 1, DOWN)
    same((told.depth, told.used1, told.used2), (2, 2, 0))
    same(reround(zero(False, 2), 2, 1, DOWN).depth, 0)


def check_doubles():
    """Selected with 53 bits and an unbounded exponent; only then is the range judged."""
    too_large, between = regular(1, 2, 2, 1025), regular(1, power(54) - 1, 54, 1024)
    for mode in MODES:
        same(refusal_of(to_double(too_large, mode)), (12, 0))
    same(to_double(between, TOWARD_ZERO), ToDouble(BELOW, LARGEST))
    same(refusal_of(to_double(between, NEAREST)), (12, 0))
    same(to_double(regular(1, power(55) - 3, 55, 1024), NEAREST), ToDouble(BELOW, LARGEST))
    same(refusal_of(enclosing_pair(between)), (12, 0))
    below = regular(1, power(54) - 1, 54, -1022)
    same(to_double(below, UP), ToDouble(ABOVE, SMALLEST))
    same(refusal_of(to_double(below, DOWN)), (13, 0))
    pair = enclosing_pair(below)
    same((pair.lower, pair.upper, pair.refusal), (0, 0, 13))
    same(refusal_of(to_double(regular(1, 2, 2, -1073), NEAREST)), (13, 0))
    pair = enclosing_pair(zero(True, 7))
    same((pair.lower, pair.upper, pair.refusal), (MINUS_ZERO, MINUS_ZERO, 0))
    same(to_double(zero(True, 7), 4).case, REFUSED)
    same(to_double(zero(True, 7), UP), ToDouble(EXACT, MINUS_ZERO))


def check_from_double():
    infinite = 0x7FF << 52
    same(refusal_of(from_double(infinite, 2)), (3, 3))
    same((refusal_of(from_double(infinite, 1)), from_double(infinite, 1).number), ((14, 1), NOTHING))
    told = from_double(MINUS_ZERO, 1)
    same((told.number, told.limbs), (Number(True, 1, 53, 0, (0,)), (0,)))
    same(from_double(1, 1).number, regular(1, power(52), 53, -1073))


def check_lines():
    """A reader's and a writer's refusals with their places."""
    number = regular(1, power(63), 64, 5)
    line = line_of(number)
    same(line, b"00004000000005" + b"8000000000000000\n")
    same(refusal_of(read_line(line, 2)), (3, 3))
    same(refusal_of(read_line(b"02004000000000\n", 0)), (3, 3))
    same(refusal_of(read_line(b"00004000000005\n", 1)), (8, 1))
    same(refusal_of(read_line(line[:-1] + b"0", 1)), (9, 1))
    same(refusal_of(read_line(line[:14] + b"\n" + line[15:], 1)), (9, 1))
    same(refusal_of(read_line(b"0" * 2000 + b"g\n", 1)), (9, 1))
    same(refusal_of(read_line(b"0" * 2000 + b"\n", 1)), (2, 1))
    same(refusal_of(write_line(Number(False, REGULAR, 64, 0, ()), 0)), (3, 1))
    same(refusal_of(write_line(number, 30)), (3, 3))
    same(write_line(number, 31).count, 31)
    same(limb_count(4096), 64)


DESK = [
    (b"", b""),
    (WHOLE, PRINTED),
    (WHOLE + b"\n", PRINTED + b"ee0802\n"),
    (b"\n", b"ee0802\n"),
    (b"zz\nzz\n", b"ee0803\n"),
    (b"\n\n\n", b"ee0801\n"),
    (FIRST, b"ee0802\n"),
    (FIRST + SECOND, b"ee0803\n"),
    (FIRST + SECOND[:9], b"ee0803\n"),
    (WHOLE[:-1], b"ee0803\n"),
    (WHOLE[:-1] + b"0", b"ee0903\n"),
    (b"zz\n" + SECOND + b"00000400\n" + WHOLE, b"ee0801\n" + PRINTED),
    (FIRST[:-1] + b"\r\n" + SECOND + b"00000400\n", b"ee0901\n"),
    (FIRST + SECOND + b"00000400\r\n", b"ee0803\n"),
    (FIRST + SECOND + b"02000104\n", b"ee0b03\n"),
    (FIRST + SECOND + b"00000104\n", b"ee0100\n"),
    (FIRST + SECOND + b"00000103\n", b"ee0203\n"),
    (FIRST + SECOND[:-2] + b"1\n" + b"00000404\n", b"ee0502\n"),
    (FIRST + b"0" * 1039 + b"\n" + b"00000400\n", b"ee0802\n"),
    (b"g" * 1039 + b"\n" + SECOND + b"00000400\n", b"ee0801\n"),
    (b"g" * 1038 + b"\n" + SECOND + b"00000400\n", b"ee0901\n"),
    (FIRST + SECOND + b"0" * 4000, b"ee0803\n"),
    (b"0000023fffffff8000000000000000\n" * 2 + b"00000200\n", b"ee0603\n"),
]


def check_desk():
    for given, printed in DESK:
        assert desk(given) == printed, (given, desk(given), printed)


if __name__ == "__main__":
    for check in (check_checks, check_counts, check_doubles, check_from_double, check_lines, check_desk):
        check()
    print("readings: all agree")
