"""The marked sums 10 to 13, the depth example, and each error that looks reasonable with its wrong answer."""

from typing import NamedTuple

from cases import ADD, LEAST, MOST, SUBTRACT, Case
from errors import SHOWS, differs
from kernel import DOWN, MODES, NEAREST, UP, Answer, add, limb_count, power, regular
from marked import written

FILL = 0x5A


class Row(NamedTuple):
    """What is asked and, beside an error, the answer that the error gives."""

    name: str
    case: Case
    wrong: Answer | None = None


def asking(operation, x, y, precision, mode):
    return Case(operation, mode, precision, limb_count(precision), FILL, x, y)


def table():
    """Rows 10 to 13."""
    top = written("10", MOST)
    for precision in (2, 3, 64, 4096):
        for mode in MODES:
            yield Row(f"10: precision {precision}, mode {mode}", asking(ADD, top, top, precision, mode))
    for name, mode in (("up", UP), ("down", DOWN)):
        x, y = written("1111", MOST), written("10", MOST - 5)
        yield Row(f"11: {name}", asking(ADD, x, y, 4, mode))
    for precision in (2, 3, 64, 4096):
        for mode in MODES:
            x, y = written("11", LEAST), written("10", LEAST)
            yield Row(f"12: precision {precision}, mode {mode}", asking(SUBTRACT, x, y, precision, mode))
    yield Row("13", asking(ADD, written("10"), written("10", -1000000), 62, UP))


def depth_example():
    """Bit 62 clear and all others set: depth 2 with m = 128, 1 with m = 64."""
    top, full = power(64) - 1 - power(62), power(64) - 1
    for sign in (1, -1):
        for y_digits in (power(63), full):
            y = regular(sign, y_digits, 64, -64)
            for low in (0, 1, full):
                x = regular(sign, top * power(64) + low, 128, 0)
                yield Row("depth: m = 128", asking(ADD, x, y, 2, NEAREST))
            yield Row("depth: m = 64", asking(ADD, regular(sign, top, 64, 0), y, 2, NEAREST))


def errors():
    """Each error that looks reasonable, beside sums that show it."""
    for variant, name, x, y, precision, mode in SHOWS:
        right = add(x, y, precision, limb_count(precision), mode)
        wrong = variant(x, y, precision, mode)
        if not differs(right, wrong, variant):
            raise ValueError(f"{variant.__name__}: right and wrong do not differ")
        name = f"{variant.__doc__.splitlines()[0]} {name}, precision {precision}, mode {mode}"
        yield Row(name, asking(ADD, x, y, precision, mode), wrong)


def rows():
    yield from table()
    yield from depth_example()
    yield from errors()
