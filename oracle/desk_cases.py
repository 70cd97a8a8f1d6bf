"""Whole inputs for the desk program."""

from cases import ADD, SUBTRACT, Draw, all_cases
from kernel import limb_count, power, regular, zero
from line_cases import cut_lines, faulty_lines, sound, strange_bytes
from lines import LONGEST, line_of

ONE_CASE = (b"000004000000018000000000000000\n", b"000002fffffffc8000000000000000\n", b"00000400\n")


def order_line(operation, precision, mode):
    return f"{operation % 256:02x}{precision % 65536:04x}{mode % 256:02x}\n".encode()


def well_formed(number):
    return 2 <= number.precision <= 4096 and len(number.limbs) == limb_count(number.precision) and \
        abs(number.exponent) < power(30)


def sums_as_groups(step):
    """A part of the sums, zeros and refusals 6 and 7 among them."""
    for index, case in enumerate(all_cases()):
        if index % step or case.operation not in (ADD, SUBTRACT):
            continue
        if well_formed(case.x) and well_formed(case.y):
            yield line_of(case.x) + line_of(case.y) + order_line(case.operation, case.precision, case.mode)


def one_line(line):
    """A line as the desk sees it: a broken one would be two."""
    return line.count(b"\n") == 1 and line.endswith(b"\n")


def faulty_groups():
    """A fault in one of the lines, or in several."""
    draw = Draw("desk faults")
    bad = [line for source in (cut_lines, strange_bytes, faulty_lines) for line, _ in source(draw)]
    bad = [line for line in bad if one_line(line)]
    orders = bad_orders(draw)
    for _ in range(400):
        first = draw.of(bad) if draw.below(2) else sound(draw)[0]
        second = draw.of(bad) if draw.below(2) else sound(draw)[0]
        third = draw.of(orders) if draw.below(2) else order_line(draw.below(2), draw.precision(), draw.below(4))
        yield first + second + third
    for third in orders:
        yield sound(draw)[0] + sound(draw)[0] + third


def bad_orders(draw):
    """Desk lines of wrong size, with strange bytes, operations above 1, modes above 3, precisions."""
    good = order_line(0, 53, 0)
    lines = [b"\n", b"0\n", good[:-2] + b"\n", b"0" + good, good[:-1] + b"\r\n", b"0000350 \n",
             b"0000350A\n", b"0000350g\n", b"000035\r0\n", b" " * 8 + b"\n", b"0" * 1038 + b"\n",
             b"0" * 1039 + b"\n", b"0" * 3000 + b"\n", ONE_CASE[0]]
    for operation in (2, 3, 128, 255):
        for mode in (0, 4):
            lines.append(order_line(operation, draw.of((53, 0, 4097)), mode))
    for mode in (4, 5, 255):
        for precision in (53, 1, 4097):
            lines.append(order_line(draw.below(2), precision, mode))
    for precision in (0, 1, 4097, 65535):
        lines.append(order_line(draw.below(2), precision, draw.below(4)))
    return lines


def long_lines():
    """The longest line there is, and lines that pass it by one byte and by many."""
    longest = line_of(regular(-1, power(4096) - 1, 4096, -7))
    assert len(longest) == LONGEST
    tail = b"0" * 3000 + b"\n"
    order = order_line(1, 4096, 2)
    yield longest + longest + order
    yield longest[:-1] + b"0\n" + longest + order
    yield longest + longest[:-1] + b"0\n" + order
    yield tail + tail + order
    yield longest + tail + order
    yield tail + longest + tail
    yield longest + longest + tail
    yield b"g" * 5000 + b"\n" + b"g\n" + b"g\n"


def long_input():
    """One input of many whole groups, cut short at its end."""
    groups = list(sums_as_groups(7)) + list(faulty_groups()) + list(long_lines())
    groups += [b"".join(ONE_CASE)] * 2
    return b"".join(groups) + ONE_CASE[0] + ONE_CASE[1]


def ordered_faults():
    """Two faults in one group: the earlier line's is named, and within a line the earlier check's."""
    good, bad_bytes = ONE_CASE[0], ONE_CASE[0].replace(b"8", b"G")
    short, kind, wide = b"00\n", b"04" + ONE_CASE[0][2:], b"001001" + ONE_CASE[0][6:]
    firsts = (good, bad_bytes, short, kind, wide, ONE_CASE[0].upper(), ONE_CASE[0][:-1] + b"\r\n", b"0" * 2000 + b"\n")
    thirds = (ONE_CASE[2], b"\n", b"0000040g\n", b"02000404\n", b"00000404\n", b"00000100\n", b"01100100\n", b"000004000\n", b"00000400\r\n")
    for first in firsts:
        for second in firsts:
            for third in thirds:
                yield first + second + third


def gate_input():
    """The groups that the gate runs: document 01's case, more sums than the long input, every pair of faults, cut at its third line."""
    groups = [b"".join(ONE_CASE)] + list(sums_as_groups(3)) + list(faulty_groups()) + list(ordered_faults()) + list(long_lines())
    return b"".join(groups) + ONE_CASE[0] + ONE_CASE[1]


def streams():
    """Short inputs: empty, cut at every byte, with CR, with empty lines."""
    whole = b"".join(ONE_CASE)
    draw = Draw("desk streams")
    for size in range(len(whole) + 1):
        yield whole[:size]
    for size in (0, 1, 30, 31, 32, 61, 62, 63, 70, 71):
        yield whole + whole[:size]
    yield from (b"\n", b"\n\n", b"\n\n\n", b"\n\n\n\n", whole + b"\n", whole + b"\n\n", whole + b"\n\n\n")
    yield whole.replace(b"\n", b"\r\n")
    yield whole[:-1] + b"0"
    yield whole[:-1] + b"00"
    yield b"0" * 2000
    yield b"zz\n" + b"0" * 2000
    yield ONE_CASE[0] + ONE_CASE[1] + b"0" * 2000
    yield b"zz\nzz\n"
    yield b"zz\n"
    minus = line_of(zero(True, 64))
    for sign in (False, True):
        yield minus + line_of(zero(sign, 2)) + order_line(0, 100, 3)
        yield minus + line_of(zero(sign, 2)) + order_line(1, 100, 0)
    for group in list(long_lines()):
        yield group[:-1]
        yield group + group[:draw.below(len(group))]
