"""The stored line: written and read, with every refusal in its order."""

from dataclasses import dataclass

from kernel import (
    NOTHING, REGULAR, Number, digits_ok, exponent_ok, limb_count, precision_ok,
)

DIGITS = b"0123456789abcdef"
SHORTEST = 15
LONGEST = 1039
LINE_END = b"\n"


@dataclass(frozen=True)
class Written:
    """`text` stands at the room's start; nothing else in the room changes."""

    count: int
    text: bytes
    refusal: int = 0
    place: int = 0


@dataclass(frozen=True)
class Read:
    """`limbs` are the target's at exit, None if untouched."""

    number: Number
    limbs: tuple | None
    refusal: int = 0
    place: int = 0


def line_of(number):
    """The one line of a well-formed number."""
    kind_byte = 2 * number.kind + number.negative
    text = f"{kind_byte:02x}{number.precision:04x}{number.exponent % 2**32:08x}"
    if number.kind == REGULAR:
        text += "".join(f"{limb:016x}" for limb in reversed(number.limbs))
    return text.encode() + LINE_END


def write_line(number, room):
    """Checks 2, 3 for limbs, 4, 5, 3 for room; `room` is a length in bytes."""
    if not precision_ok(number.precision):
        return Written(0, b"", 2, 1)
    if len(number.limbs) != limb_count(number.precision):
        return Written(0, b"", 3, 1)
    if not exponent_ok(number):
        return Written(0, b"", 4, 1)
    if not digits_ok(number):
        return Written(0, b"", 5, 1)
    text = line_of(number)
    if len(text) > room:
        return Written(0, b"", 3, 3)
    return Written(len(text), text)


def signed(word):
    """A four-byte word as two's complement."""
    return word - 2**32 if word >= 2**31 else word


def hexadecimal(line):
    """Check 9: digits and then one LF."""
    return line[-1:] == LINE_END and all(byte in DIGITS for byte in line[:-1])


def head_of(line):
    """(refusal, kind byte, precision, exponent) by checks 8, 9, 10, 2 and 8."""
    if len(line) < SHORTEST:
        return 8, 0, 0, 0
    if not hexadecimal(line):
        return 9, 0, 0, 0
    kind_byte, precision = int(line[0:2], 16), int(line[2:6], 16)
    if kind_byte > 3:
        return 10, 0, 0, 0
    if not precision_ok(precision):
        return 2, 0, 0, 0
    carried = limb_count(precision) if kind_byte < 2 else 0
    if len(line) != SHORTEST + 16 * carried:
        return 8, 0, 0, 0
    return 0, kind_byte, precision, signed(int(line[6:14], 16))


def limbs_in(line):
    """The limbs a line carries, lowest first."""
    body = line[14:-1]
    top_first = [int(body[at:at + 16], 16) for at in range(0, len(body), 16)]
    return tuple(reversed(top_first))


def read_line(line, length):
    """A line into a target of `length` limbs; None lends as many as the line needs."""
    refusal, kind_byte, precision, exponent = head_of(line)
    if refusal:
        return Read(NOTHING, None, refusal, 1)
    kind, negative = divmod(kind_byte, 2)
    limbs = limbs_in(line) if kind == REGULAR else (0,) * limb_count(precision)
    number = Number(negative == 1, kind, precision, exponent, limbs)
    if not exponent_ok(number):
        return Read(NOTHING, None, 4, 1)
    if length is not None and length != limb_count(precision):
        return Read(NOTHING, None, 3, 3)
    if not digits_ok(number):
        return Read(NOTHING, None, 5, 1)
    assert line_of(number) == line
    return Read(number, limbs)
