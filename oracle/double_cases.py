"""Numbers to turn into doubles and doubles to turn into numbers."""

from cases import Draw, an_operand, spoiled
from kernel import BASE, MODES, power, regular

TO_DOUBLE, PAIR, FROM_DOUBLE = range(3)


def about_53(draw):
    """Digits exact in 53, on a tie, or beside either."""
    lead = power(52) + draw.of((draw.bits(52), draw.runs(52), power(52) - 1, 0))
    m = 53 + draw.of((0, 1, 2, 10, 11, 12, 75, 76))
    extra = m - 53
    half = power(extra) // 2
    tail = draw.of((0, half, max(half - 1, 0), min(half + 1, max(power(extra) - 1, 0)), power(extra) - 1))
    return lead * power(extra) + tail, m


def plain():
    """All modes, exponents well inside the range, any precision."""
    draw = Draw("doubles plain")
    for _ in range(250):
        digits, m = about_53(draw)
        number = regular(draw.sign(), digits, m, draw.between(-300, 300))
        yield from asked(number)
    for _ in range(150):
        m = draw.precision()
        yield from asked(draw.regular(m, draw.between(-1000, 1000)))
    for m in (1024, 4095, 4096):
        yield from asked(draw.regular(m, 1))


def at_the_ends():
    """About 2^1024 and 2^-1022, and the kernel's own ends."""
    draw = Draw("doubles ends")
    exponents = (1023, 1024, 1024, 1025, 1026, -1020, -1021, -1022, -1022, -1023, -1073, -1074, -1075,
                 -1076, BASE.most_exponent, BASE.least_exponent)
    for exponent in exponents:
        for sign in (1, -1):
            for m in (2, 53, 54, 64, 65, 200):
                for digits in (power(m) - 1, power(m - 1), draw.digits(m)):
                    if draw.below(2):
                        yield from asked(regular(sign, digits, m, exponent))
            for digits, m in (about_53(draw), about_53(draw)):
                yield from asked(regular(sign, digits, m, exponent))


def asked(number):
    for mode in MODES:
        yield TO_DOUBLE, mode, number
    yield PAIR, 0, number


def zeros_and_faults():
    """Zeros of either sign, and each refusal from 1 to 5 with their order."""
    draw = Draw("doubles faults")
    for precision in (2, 53, 64, 65, 4096):
        for _ in range(2):
            yield from asked(draw.zero(precision))
    for mode in (4, 7, 255):
        yield TO_DOUBLE, mode, an_operand(draw)
        yield TO_DOUBLE, mode, draw.zero(64)
    for _ in range(200):
        faults = [fault for fault in (2, 3, 4, 5) if draw.below(2)]
        number = spoiled(draw, an_operand(draw), faults)
        yield TO_DOUBLE, draw.of((0, 1, 2, 3, 0, 1, 2, 4)), number
        yield PAIR, 0, number


def numbers():
    """(operation, mode, number)."""
    yield from plain()
    yield from at_the_ends()
    yield from zeros_and_faults()


def doubles():
    """(bits, target length, fill): every field at its ends, subnormals, infinities, NaNs."""
    draw = Draw("from doubles")
    for field in (0, 1, 2, 1022, 1023, 1024, 2045, 2046, 2047):
        for fraction in (0, 1, 2, power(51), power(52) - 1, draw.bits(52), draw.bits(20)):
            for sign in (0, 1):
                bits = (sign << 63) + (field << 52) + fraction
                yield bits, draw.of((1, 1, 1, 1, 1, 0, 2)), draw.fill()
    for place in range(52):
        yield power(place) + (draw.below(2) << 63), 1, draw.fill()
    for _ in range(200):
        yield draw.bits(64), 1, draw.fill()
