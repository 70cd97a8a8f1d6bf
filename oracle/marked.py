"""The marked sums of document 01, its depth example and the desk's case."""

from kernel import (
    BASE, DOWN, MODES, NEAREST, REGULAR, UP, ZERO, add, limb_count, regular, subtract,
)

MOST = BASE.most_exponent
LEAST = BASE.least_exponent


def written(digits, exponent=0, sign=1):
    """0.digits * 2^exponent, its precision fitting the digits shown."""
    return regular(sign, int(digits, 2), len(digits), exponent)


def run(operation, x, y, precision, mode):
    return operation(x, y, precision, limb_count(precision), mode)


ROWS = [
    # name, operation, x, y, precision, modes, digits, exponent, ternary
    ("P1", add, ("101010000010010001", 0), ("10001", -9), 4, [NEAREST], "1011", 0, 1),
    ("P2", add, ("101010000010010001", 0), ("10001", -9), 4, [DOWN], "1010", 0, -1),
    ("P3", add, ("101111100101", 0), ("11010", -7), 2, [NEAREST], "11", 0, 1),
    ("P4", add, ("101111100101", 0), ("11011", -7), 2, MODES, "11", 0, 0),
    ("P5", add, ("100", 0), ("10", -2), 2, [NEAREST], "10", 0, -1),
    ("P6", add, ("110", 0), ("10", -2), 2, [NEAREST], "10", 1, 1),
    ("P7", add, ("11", 0), ("11", 0), 2, MODES, "11", 1, 0),
    ("P8", subtract, ("10", 1), ("1111", 0), 2, MODES, "10", -3, 0),
    ("11 down", add, ("1111", MOST), ("10", MOST - 5), 4, [DOWN], "1111", MOST, -1),
]


def check_rows():
    for name, operation, x, y, precision, modes, digits, exponent, ternary in ROWS:
        for mode in modes:
            answer = run(operation, written(*x), written(*y), precision, mode)
            expected = written(digits, exponent)
            assert answer.refusal == 0, (name, mode, answer)
            assert answer.number == expected and answer.limbs == expected.limbs, (name, mode, answer)
            assert answer.ternary == ternary, (name, mode, answer)


def check_cancellation():
    """P9: +0 in all four modes, from either side of zero."""
    for mode in MODES:
        for sign in (1, -1):
            x = written("10", 0, sign)
            answer = run(subtract, x, x, 2, mode)
            assert answer.number.kind == ZERO and not answer.number.negative, answer
            assert (answer.number.exponent, answer.ternary, answer.limbs) == (0, 0, (0,)), answer


def check_refusals():
    """10 to 12."""
    top = written("10", MOST)
    for mode in MODES:
        for precision in (2, 3, 64, 4096):
            answer = run(add, top, top, precision, mode)
            assert (answer.refusal, answer.place, answer.depth) == (6, 3, 1), answer
            assert answer.limbs == (0,) * limb_count(precision), answer
            answer = run(subtract, written("11", LEAST), written("10", LEAST), precision, mode)
            assert (answer.refusal, answer.place) == (7, 3), answer
    answer = run(add, written("1111", MOST), written("10", MOST - 5), 4, UP)
    assert (answer.refusal, answer.place) == (6, 3), answer


def check_hole():
    """13: last bit set, ternary 1; depth 1, limbs 1 and 0."""
    answer = run(add, written("10"), written("10", -1000000), 62, UP)
    assert answer.number == written("1" + "0" * 60 + "1"), answer
    assert (answer.ternary, answer.depth, answer.used1, answer.used2) == (1, 1, 1, 0), answer


def check_depth_example():
    """Bit 62 clear and all others set: depth 2 with m = 128, 1 with m = 64."""
    top = (1 << 64) - 1 - (1 << 62)
    for low in (0, 1, (1 << 64) - 1):
        for y_digits in (1 << 63, (1 << 64) - 1):
            y = regular(1, y_digits, 64, -64)
            for sign in (1, -1):
                y = regular(sign, y_digits, 64, -64)
                long = run(add, regular(sign, (top << 64) + low, 128, 0), y, 2, NEAREST)
                short = run(add, regular(sign, top, 64, 0), y, 2, NEAREST)
                assert (long.depth, short.depth) == (2, 1), (long, short)
                assert long.number.kind == REGULAR and long.refusal == 0


def check_desk():
    from desk import desk

    given = (
        b"000004000000018000000000000000\n"
        b"000002fffffffc8000000000000000\n"
        b"00000400\n"
    )
    printed = b"000004000000018000000000000000\nff00010101\n"
    assert desk(given) == printed, desk(given)


if __name__ == "__main__":
    check_rows()
    check_cancellation()
    check_refusals()
    check_hole()
    check_depth_example()
    check_desk()
    print("marked sums 1 to 13, the depth example and the desk's case: all agree")
