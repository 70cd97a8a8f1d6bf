"""The marked rows in words: comments before a question, the right answer and beside an error the one that it gives."""

from kernel import BASE, REGULAR


def digits_in(number):
    """The digits after the point, all of them."""
    whole = sum(limb << BASE.width * place for place, limb in enumerate(number.limbs))
    return bin(whole >> len(number.limbs) * BASE.width - number.precision)[2:]


def in_words(answer):
    number = answer.number
    sign = "-" if number.negative else "+"
    if answer.refusal:
        value = f"refused {answer.refusal} at place {answer.place}"
    elif number.kind != REGULAR:
        value = f"{sign}0 of precision {number.precision}"
    else:
        value = f"{sign}0.{digits_in(number)} * 2^{number.exponent}"
    return (f"{value}, ternary {answer.ternary}, depth {answer.depth}, "
            f"limbs used {answer.used1} and {answer.used2}")


def parts(answer):
    """Each part of an answer under its name."""
    number = answer.number
    return {
        "refusal": answer.refusal, "place": answer.place, "sign": number.negative,
        "kind": number.kind, "precision": number.precision, "exponent": number.exponent,
        "ternary value": answer.ternary, "depth": answer.depth, "limbs used of the first": answer.used1,
        "limbs used of the second": answer.used2, "target": answer.limbs,
    }


def apart(answer, other):
    """In what two answers differ."""
    mine, theirs = parts(answer), parts(other)
    return ", ".join(name for name in mine if mine[name] != theirs[name])


def comments(row, right):
    """The lines before a marked row, which `tests_sums` prints as they are."""
    lines = [row.name, f"  expected  {in_words(right)}"]
    if row.wrong is not None:
        lines += [f"  error     {in_words(row.wrong)}", f"            differs in {apart(right, row.wrong)}"]
    return "".join(f"# {line}\n" for line in lines)
