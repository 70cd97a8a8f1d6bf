"""Numbers to write and lines to read."""

from itertools import combinations

from cases import LARGE, Draw, an_operand, spoiled
from kernel import BASE, REGULAR, limb_count, power
from lines import SHORTEST, line_of

ENDS = (BASE.most_exponent, BASE.least_exponent, 0, 1, -1)

# faults in the order of checking; 8 is the exact size
SHORT, ROOM = "short", "room"
OF_READING = (SHORT, 9, 10, 2, 8, 4, 3, 5)
OF_WRITING = (2, 3, 4, 5, ROOM)


def a_number(draw):
    precision = draw.precision()
    return draw.zero(precision) if draw.below(5) == 0 else draw.regular(precision, draw.of(ENDS))


def line_size(number):
    return len(line_of(number))


def to_write():
    """(number, room, fill): room that fits, is short by one, is empty, or too long."""
    draw = Draw("lines written")
    for _ in range(300):
        number = a_number(draw)
        size = line_size(number)
        room = draw.of((size, size, size + 1, size + 9, size - 1, SHORTEST, 14, 0))
        yield number, room, draw.fill()
    for precision in LARGE:
        number = draw.regular(precision, draw.of(ENDS))
        yield number, line_size(number) + draw.of((0, 0, 5, -1)), draw.fill()
    for _ in range(200):
        number = spoiled(draw, an_operand(draw), [fault for fault in (2, 3, 4, 5) if draw.below(3) == 0])
        yield number, draw.of((0, 14, 15, 31, 47, 64, 100)), draw.fill()
    yield from faulty_numbers()


def alone_and_paired(faults):
    """Each fault alone, and every two at once: the earlier one must be named."""
    yield from ([fault] for fault in faults)
    yield from combinations(faults, 2)


def faulty_numbers():
    """(number, room, fill) with the faults wanted."""
    draw = Draw("faults written")
    for faults in alone_and_paired(OF_WRITING):
        for _ in range(4):
            number = an_operand(draw)
            room = line_size(number) - (draw.of((1, 2, SHORTEST)) if ROOM in faults else 0)
            yield spoiled(draw, number, [fault for fault in faults if fault != ROOM]), room, draw.fill()


def raw_line(kind_byte, precision, exponent, limbs):
    """A line as asked for, good or not; limbs lowest first."""
    text = f"{kind_byte:02x}{precision % 2**16:04x}{exponent % 2**32:08x}"
    return (text + "".join(f"{limb:016x}" for limb in reversed(limbs)) + "\n").encode()


def sound(draw):
    """(line, precision)."""
    number = a_number(draw)
    return line_of(number), number.precision


def with_byte(line, at, byte):
    return line[:at] + bytes([byte]) + line[at + 1:]


def good_lines(draw):
    for _ in range(250):
        line, precision = sound(draw)
        yield line, limb_count(precision)
    for precision in LARGE:
        yield line_of(draw.regular(precision, draw.of(ENDS))), limb_count(precision)


def cut_lines(draw):
    """8: too short, too long, the wrong size for the kind."""
    for size in range(0, 32):
        line, precision = sound(draw)
        yield line[:size], limb_count(precision)
        if size:
            yield line[:size - 1] + b"\n", limb_count(precision)
    for kind_byte in (0, 1, 2, 3, 4):
        for count in (0, 1, 2, 3):
            yield raw_line(kind_byte, 65, 0, (power(63),) * count), 2
    yield raw_line(0, 4096, 0, (power(63),) * 65), 64
    yield b"0" * 1100 + b"\n", 1


def strange_bytes(draw):
    """9: each byte that stands beside a digit's range, at any place; LF inside; no LF."""
    for byte in (0, 9, 10, 13, 32, 43, 45, 47, 58, 64, 65, 70, 71, 95, 96, 103, 120, 127, 128, 176, 255):
        for at in (0, 1, 2, 13, 14, -2, -1):
            line, precision = sound(draw)
            place = at % len(line)
            yield with_byte(line, place, byte), limb_count(precision)
    for _ in range(40):
        line, precision = sound(draw)
        yield with_byte(line, draw.below(len(line)), draw.below(256)), limb_count(precision)


def faulty_lines(draw):
    """10, 2, 4, 3 and 5, alone and together."""
    for _ in range(300):
        kind_byte = draw.of((0, 0, 0, 1, 2, 3, 4, 5, 255))
        precision = draw.of((64, 63, 65, 2, 128, 100, 0, 1, 4097, 65535))
        exponent = draw.of((0, 0, 1, -5, 2**30 - 1, 2**30, 1 - 2**30, -2**30, -2**31, 2**31 - 1))
        count = limb_count(precision) if precision <= 4096 else 1
        carried = 0 if kind_byte in (2, 3) else count
        carried = max(carried + draw.of((0, 0, 0, 0, 0, 0, 1, -1)), 0)
        spare = 64 * count - precision
        limbs = [draw.bits(64) for _ in range(carried)]
        if limbs:
            limbs[-1] |= power(63)
            limbs[0] = limbs[0] >> spare << spare if 0 < spare < 64 else limbs[0]
            if draw.below(4) == 0:
                limbs[-1] &= draw.of((power(63) - 1, 0))
            if draw.below(4) == 0:
                limbs[0] |= draw.of((1, power(max(min(spare, 64) - 1, 0))))
        length = count + draw.of((0, 0, 0, 0, 0, 0, 1, -1))
        yield raw_line(kind_byte, precision, exponent, limbs), max(length, 0)


def line_with(draw, faults):
    """(line, target length) with the faults wanted."""
    precision = draw.of((53, 64, 65, 100, 128))
    number = draw.regular(precision, draw.of(ENDS))
    if 5 not in faults and draw.below(3) == 0:
        number = draw.zero(precision)
    number = spoiled(draw, number, [fault for fault in faults if fault in (4, 5)])
    limbs = number.limbs if number.kind == REGULAR else ()
    if 8 in faults:
        limbs = limbs[1:] if limbs and draw.below(2) else limbs + (power(63),)
    length = limb_count(precision) + (draw.of((1, -1)) if 3 in faults else 0)
    precision = draw.of((0, 1, 4097, 65535)) if 2 in faults else precision
    kind_byte = draw.of((4, 5, 16, 255)) if 10 in faults else 2 * number.kind + number.negative
    line = raw_line(kind_byte, precision, number.exponent, limbs)
    if 9 in faults:
        line = with_byte(line, draw.below(len(line) - 1), draw.of(b"ABCDEFGg/:@`\n\r \0"))
    return (line[:draw.below(SHORTEST)] if SHORT in faults else line), length


def orders(draw):
    for faults in alone_and_paired(OF_READING):
        for _ in range(4):
            yield line_with(draw, faults)


def foreign_lines(draw):
    """Other ends of a line, capitals, two lines at once."""
    for _ in range(12):
        line, precision = sound(draw)
        for other in (line[:-1] + b"\r\n", line[:-1] + b"\r", line[:-1], line + b"\n", line.upper(), line + line, b" " + line):
            yield other, limb_count(precision)


def to_read():
    """(line, target length, fill)."""
    draw = Draw("lines read")
    for source in (good_lines, cut_lines, strange_bytes, faulty_lines, orders, foreign_lines):
        for line, length in source(draw):
            yield line, length, draw.fill()
