"""Cases and answers for the C and Rust faces: python3 oracle/face_cases.py DIR [ROUNDS]

Every family of the other cases, in several rounds with other streams, then long
sums, and numbers and lines damaged in any way. No case stands twice. Fields as
README.md says, and a file `parts`:

    00 turn the sign: number given                  number told
    01 trim: limb count [2], limbs                  start [2], count [2]
    02 head of a line: length [2], bytes            refusal [1], place [1], number told
"""

import os
import sys
from itertools import chain

import cases
import compare_cases
import double_cases
import line_cases
import vectors
from cases import ADD, COMPARE, LEAST, MOST, REROUND, SUBTRACT, Case, clamped, either_order
from kernel import MODES, NOTHING, REGULAR, Number, exponent_ok, limb_count, power, regular, trim, turn_sign
from lines import head_of
from vectors import field, limbs_field, number_fields, number_given, write_pairs

ROUNDS = 4
TURN_SIGN, TRIM, HEAD = range(3)


class Draw(cases.Draw):
    """The streams of a round; those of round 0 are the other cases' own."""

    round = 0

    def __init__(self, name):
        super().__init__(f"{name}, round {Draw.round}" if Draw.round else name)


def in_rounds(make, rounds):
    """What a maker gives in each round, its families drawing from the round's streams."""
    for module in (cases, compare_cases, double_cases, line_cases):
        module.Draw = Draw
    for Draw.round in range(rounds):
        yield from make()
    Draw.round = 0


def once(pairs):
    """No question twice: a family that enumerates draws nothing."""
    seen = set()
    for question, answer, refusal in pairs:
        if question not in seen:
            seen.add(question)
            yield question, answer, refusal


# Long numbers


def long_sums():
    """300 to 4,096 digits on both sides, alike or not, near and far."""
    draw = Draw("face long")
    for _ in range(2500):
        m, n = draw.between(300, 4096), draw.between(2, 4096)
        p = draw.of((draw.between(2, 4096), m, n, 53))
        gap = draw.of((0, 1, draw.below(64), draw.below(4200), p, m, abs(m - n)))
        x, y = draw.regular(m, 0), draw.regular(n, -gap)
        if draw.below(3) == 0:
            digits = cases.x_as(x, m, n) ^ draw.of((0, 1, power(draw.below(n))))
            y = regular(-1 if x.negative else 1, max(digits, power(n - 1)), n, 0)
        if draw.below(4) == 0:
            yield draw.case(x, cases.ABSENT, p, REROUND)
        else:
            yield draw.case(*either_order(draw, x, y), p, draw.of((ADD, SUBTRACT)))


# Anything at all


def any_number(draw):
    """Each field in or out of range, as many limbs as it takes or not, in good form or not."""
    within = (draw.precision(),) * 9 + (draw.between(2, 4096),) * 9
    precision = draw.of(within + (draw.between(0, 4200), power(draw.below(64)), draw.bits(64)))
    exponent = draw.of((0, draw.between(-99, 99), MOST + draw.between(-2, 2), LEAST + draw.between(-2, 2),
                        draw.bits(32) - power(31)))
    count = limb_count(min(precision, 4200))
    if draw.below(9) == 0:
        count = draw.of((0, 1, count + 1, max(count - 1, 0), draw.below(70)))
    limbs = [draw.of((0, power(63), draw.bits(64), power(64) - 1)) for _ in range(count)]
    if limbs and draw.below(9):
        limbs[-1] |= power(63)
        spare = (64 - precision) % 64
        limbs[0] = limbs[0] >> spare << spare
    kind = int(draw.below(4) == 0)
    if kind and draw.below(4):
        exponent = 0
    return Number(draw.below(2) == 1, kind, precision, exponent, tuple(limbs))


def any_sums():
    draw = Draw("face any sum")
    for _ in range(8000):
        x, y = any_number(draw), any_number(draw)
        if draw.below(2) and x.kind == REGULAR:
            y = Number(y.negative, y.kind, y.precision, clamped(x.exponent - draw.below(200)), y.limbs)
        precision = draw.of((x.precision, y.precision, draw.precision(), draw.between(0, 4200)))
        length = limb_count(min(precision, 4200))
        length = draw.of((length,) * 9 + (0, length + 1, max(length - 1, 0), draw.below(70)))
        mode = draw.of(MODES * 5 + (draw.below(256),))
        operation = draw.of((ADD, SUBTRACT, REROUND, COMPARE))
        yield Case(operation, mode, precision, length, draw.fill(), x, cases.ABSENT if operation == REROUND else y)


def any_doubles():
    """(operation, mode, number), then (bits, target length, fill)."""
    draw = Draw("face any double")
    for _ in range(4000):
        number = any_number(draw)
        if draw.below(2):
            exponent = draw.between(-1080, 1030)
            number = Number(number.negative, number.kind, number.precision, exponent, number.limbs)
        yield double_cases.TO_DOUBLE, draw.of(MODES * 5 + (draw.below(256),)), number
        yield double_cases.PAIR, 0, number


def any_bits():
    draw = Draw("face any bits")
    for _ in range(2500):
        yield draw.bits(64), draw.of((1,) * 12 + (0, 2, draw.below(70))), draw.fill()


def any_written():
    draw = Draw("face any number written")
    for _ in range(2500):
        yield any_number(draw), draw.of((1039, draw.below(1100), draw.below(100), 0)), draw.fill()


def any_read():
    """Lines with a few bytes changed, cut or lengthened, and bytes of any kind."""
    draw = Draw("face any line read")
    for _ in range(4000):
        line, precision = line_cases.sound(draw)
        for _ in range(draw.below(3)):
            byte = draw.of((draw.below(256), ord("0"), ord("f"), draw.of(b"0123456789abcdef")))
            line = line_cases.with_byte(line, draw.below(len(line)), byte)
        if draw.below(8) == 0:
            line = draw.of((line[:draw.below(len(line))], line + draw.of((b"0", b"\n", b"0" * 16 + b"\n"))))
        if draw.below(20) == 0:
            line = draw.bits(8 * 40).to_bytes(40, "big")[:draw.below(41)]
        length = draw.of((limb_count(precision),) * 9 + (0, limb_count(precision) + 1, draw.below(70)))
        yield line, length, draw.fill()


# The questions of each file


def sums(rounds):
    return once(vectors.asked(chain(in_rounds(cases.all_cases, rounds), long_sums(), any_sums())))


def comparisons(rounds):
    return once(vectors.asked(in_rounds(compare_cases.comparisons, rounds)))


def doubles(rounds):
    """As vectors.doubles makes them, over these cases."""
    numbers = list(chain(in_rounds(double_cases.numbers, rounds), any_doubles()))
    bits = list(chain(in_rounds(double_cases.doubles, rounds), any_bits()))
    return once(made_over(vectors.doubles, double_cases, numbers=numbers, doubles=bits))


def lines(rounds):
    """As vectors.lines makes them, over these cases."""
    written = list(chain(in_rounds(line_cases.to_write, rounds), any_written()))
    read = list(chain(in_rounds(line_cases.to_read, rounds), any_read()))
    return once(made_over(vectors.lines, line_cases, to_write=written, to_read=read))


def made_over(make, module, **sources):
    """What a maker gives while the module's sources are these lists."""
    own = {name: getattr(module, name) for name in sources}
    for name, listed in sources.items():
        setattr(module, name, lambda listed=listed: listed)
    yield from make()
    for name, source in own.items():
        setattr(module, name, source)


# Turning a sign, trim, the head of a line


def turned():
    draw = Draw("face turn")
    for _ in range(1500):
        number = any_number(draw)
        yield field(TURN_SIGN, 1) + number_given(number), number_fields(turn_sign(number)), 0


def trimmed():
    draw = Draw("face trim")
    for _ in range(1500):
        zeros, rest = draw.of((0, 1, draw.below(70))), draw.of((0, 1, draw.below(70)))
        limbs = (0,) * zeros + tuple(draw.of((0, 1, draw.bits(64))) for _ in range(rest))
        kept = len(trim(limbs))
        question = field(TRIM, 1) + field(len(limbs), 2) + limbs_field(limbs)
        yield question, field(len(limbs) - kept, 2) + field(kept, 2), 0


def head_told(line):
    """(refusal, number): what reading checks before the target."""
    refusal, kind_byte, precision, exponent = head_of(line)
    if refusal:
        return refusal, NOTHING
    kind, negative = divmod(kind_byte, 2)
    number = Number(negative == 1, kind, precision, exponent)
    return (0, number) if exponent_ok(number) else (4, NOTHING)


def heads(rounds):
    for line, _, _ in chain(in_rounds(line_cases.to_read, rounds), any_read()):
        refusal, number = head_told(line)
        question = field(HEAD, 1) + field(len(line), 2) + line.hex()
        yield question, field(refusal, 1) + field(refusal != 0, 1) + number_fields(number), refusal


def parts(rounds):
    return once(chain(turned(), trimmed(), heads(rounds)))


FILES = {"sums": sums, "compare": comparisons, "doubles": doubles, "lines": lines, "parts": parts}


def main(folder, rounds):
    os.makedirs(folder, exist_ok=True)
    for name, make in FILES.items():
        write_pairs(folder, name, make(rounds))


if __name__ == "__main__":
    if len(sys.argv) not in (2, 3) or not all(word.isdigit() for word in sys.argv[2:]):
        sys.exit("usage: python3 oracle/face_cases.py DIR [ROUNDS]")
    main(sys.argv[1], int(sys.argv[2]) if len(sys.argv) == 3 else ROUNDS)
