"""The desk program: whole input to whole output."""

import sys

from kernel import add, limb_count, subtract
from lines import LINE_END, LONGEST, hexadecimal, line_of, read_line

DESK_LINE = 9
OPERATIONS = {0: add, 1: subtract}


def lines_of(given):
    """The lines with their LF; bytes after the last LF count as a line."""
    parts = given.split(LINE_END)
    rest = parts.pop()
    return [part + LINE_END for part in parts] + ([rest] if rest else [])


def refusal_line(refusal, place):
    return f"ee{refusal:02x}{place:02x}\n".encode()


def number_in(line, place):
    """(number, None) or (None, refusal line): a line over 1,039 bytes is 8."""
    if len(line) > LONGEST:
        return None, refusal_line(8, place)
    read = read_line(line, None)
    if read.refusal:
        return None, refusal_line(read.refusal, place)
    return read.number, None


def order_in(line):
    """(operation, precision, mode, None) by checks 8, 9, 11, or a refusal line."""
    if len(line) != DESK_LINE:
        return None, 0, 0, refusal_line(8, 3)
    if not hexadecimal(line):
        return None, 0, 0, refusal_line(9, 3)
    operation, precision, mode = int(line[0:2], 16), int(line[2:6], 16), int(line[6:8], 16)
    if operation not in OPERATIONS:
        return None, 0, 0, refusal_line(11, 3)
    return OPERATIONS[operation], precision, mode, None


def report(answer):
    """Ternary, depth, limbs of first, limbs of second."""
    text = f"{answer.ternary % 256:02x}{answer.depth:04x}{answer.used1:02x}{answer.used2:02x}\n"
    return text.encode()


def group(first, second, third):
    """What one whole group prints."""
    x, fault = number_in(first, 1)
    if fault:
        return fault
    y, fault = number_in(second, 2)
    if fault:
        return fault
    operation, precision, mode, fault = order_in(third)
    if fault:
        return fault
    answer = operation(x, y, precision, limb_count(precision), mode)
    if answer.refusal:
        return refusal_line(answer.refusal, answer.place)
    return line_of(answer.number) + report(answer)


def desk(given):
    """Groups of three lines; one cut short is 8 at its first missing line."""
    lines = lines_of(given)
    printed = []
    for start in range(0, len(lines), 3):
        present = lines[start:start + 3]
        if len(present) < 3:
            printed.append(refusal_line(8, len(present) + 1))
        else:
            printed.append(group(*present))
    return b"".join(printed)


if __name__ == "__main__":
    sys.stdout.buffer.write(desk(sys.stdin.buffer.read()))
