"""Writes cases and answers as text: python3 oracle/vectors.py DIR [NAME..]

Lowercase hexadecimal, fields of fixed size, one case a line. README.md lists
the fields of each file. With names, only those files are written.
"""

import os
import sys
from collections import Counter

import line_cases
import double_cases
import desk_cases
import compare_cases
import marked_cases
from cases import ADD, COMPARE, REROUND, SUBTRACT, all_cases, gate_cases
from desk import desk
from doubles import enclosing_pair, from_double, to_double
from kernel import add, compare, reround, subtract
from lines import read_line, write_line
from marked_words import comments


def field(value, size):
    """A value in `size` bytes, two's complement."""
    return f"{value % 256**size:0{2 * size}x}"


def limbs_field(limbs):
    return "".join(field(limb, 8) for limb in limbs)


def number_fields(number):
    return (field(number.negative, 1) + field(number.kind, 1) + field(number.precision, 8)
            + field(number.exponent, 4))


def number_given(number):
    return number_fields(number) + field(len(number.limbs), 2) + limbs_field(number.limbs)


def lent(length, fill):
    """Limbs as they stand before a call."""
    return (int.from_bytes(bytes([fill]) * 8, "big"),) * length


def left(limbs, length, fill):
    """Limbs as they stand after a call."""
    return limbs_field(lent(length, fill) if limbs is None else limbs)


# Sums


def sum_given(case):
    return (field(case.operation, 1) + field(case.mode, 1) + field(case.precision, 8)
            + field(case.length, 2) + field(case.fill, 1) + number_given(case.x)
            + number_given(case.y))


def told_by(case):
    """The answer of a case that is no comparison."""
    target = (case.precision, case.length, case.mode)
    if case.operation == REROUND:
        return reround(case.x, *target)
    return {ADD: add, SUBTRACT: subtract}[case.operation](case.x, case.y, *target)


def sum_answer(case):
    if case.operation == COMPARE:
        order, refusal, place = compare(case.x, case.y)
        return field(refusal, 1) + field(place, 1) + field(order, 1), refusal
    answer = told_by(case)
    return sum_fields(case, answer), answer.refusal


def sum_fields(case, answer):
    return (field(answer.refusal, 1) + field(answer.place, 1) + number_fields(answer.number)
            + field(answer.ternary, 1) + field(answer.depth, 2) + field(answer.used1, 2)
            + field(answer.used2, 2) + left(answer.limbs, case.length, case.fill))


def asked(cases):
    for case in cases:
        yield sum_given(case), *sum_answer(case)


def sums():
    return asked(all_cases())


def gate():
    return asked(gate_cases())


def comparisons():
    return asked(compare_cases.comparisons())


def marked():
    """Each marked row, in words and then in fields."""
    for row in marked_cases.rows():
        words = comments(row, told_by(row.case))
        told, refusal = sum_answer(row.case)
        yield words + sum_given(row.case), words + told, refusal


# Doubles


def doubles():
    for operation, mode, number in double_cases.numbers():
        given = field(operation, 1) + field(mode, 1) + number_given(number)
        if operation == double_cases.TO_DOUBLE:
            told = to_double(number, mode)
            values = field(told.case, 1) + field(told.bits, 8)
        else:
            told = enclosing_pair(number)
            values = field(told.lower, 8) + field(told.upper, 8)
        yield given, field(told.refusal, 1) + field(told.place, 1) + values, told.refusal
    for bits, length, fill in double_cases.doubles():
        given = field(double_cases.FROM_DOUBLE, 1) + field(bits, 8) + field(length, 2) + field(fill, 1)
        told = from_double(bits, length)
        yield given, read_fields(told, length, fill), told.refusal


def read_fields(told, length, fill):
    return (field(told.refusal, 1) + field(told.place, 1) + number_fields(told.number)
            + left(told.limbs, length, fill))


# Lines


def lines():
    for number, room, fill in line_cases.to_write():
        told = write_line(number, room)
        given = field(0, 1) + field(room, 2) + field(fill, 1) + number_given(number)
        after = told.text + bytes([fill]) * (room - told.count)
        yield given, (field(told.refusal, 1) + field(told.place, 1) + field(told.count, 2)
                      + after.hex()), told.refusal
    for line, length, fill in line_cases.to_read():
        given = field(1, 1) + field(length, 2) + field(fill, 1) + field(len(line), 2) + line.hex()
        told = read_line(line, length)
        yield given, read_fields(told, length, fill), told.refusal


# Desk


def streams():
    for given in desk_cases.streams():
        printed = desk(given)
        yield given.hex(), printed.hex(), None


def pair_of(pairs):
    """The text of the questions, that of the answers, and how often each refusal is given."""
    given, told, refusals = [], [], Counter()
    for question, answer, refusal in pairs:
        given.append(question + "\n")
        told.append(answer + "\n")
        refusals[refusal] += 1
    return "".join(given).encode(), "".join(told).encode(), refusals


def write_bytes(folder, name, content):
    with open(os.path.join(folder, name), "wb") as file:
        file.write(content)
    return len(content)


def write_pairs(folder, name, pairs):
    given, told, refusals = pair_of(pairs)
    sizes = [write_bytes(folder, f"{name}.{end}", text) for end, text in (("in", given), ("out", told))]
    counts = ", ".join(f"{key}: {refusals[key]}" for key in sorted(refusals) if key is not None)
    print(f"{name}: {refusals.total()} cases, {sizes[0]} and {sizes[1]} bytes"
          + (f"; refusals {counts}" if counts else ""))


def write_desk(folder, name, given):
    printed = desk(given)
    print(f"{name}: {write_bytes(folder, f'{name}.in', given)} bytes in, "
          f"{write_bytes(folder, f'{name}.out', printed)} bytes out")


FILES = {
    "sums": (write_pairs, sums), "compare": (write_pairs, comparisons), "gate": (write_pairs, gate),
    "marked": (write_pairs, marked), "doubles": (write_pairs, doubles), "lines": (write_pairs, lines),
    "streams": (write_pairs, streams), "desk": (write_desk, desk_cases.long_input),
}


def main(folder, names):
    os.makedirs(folder, exist_ok=True)
    for name in names or FILES:
        write, make = FILES[name]
        write(folder, name, make())


if __name__ == "__main__":
    if len(sys.argv) < 2 or not set(sys.argv[2:]) <= set(FILES):
        sys.exit("usage: python3 oracle/vectors.py DIR [NAME..], with names of " + ", ".join(FILES))
    main(sys.argv[1], sys.argv[2:])
