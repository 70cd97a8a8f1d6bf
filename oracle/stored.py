"""The questions and answers that the programs have beside their source.

    python3 oracle/stored.py           compares them with what is made today, byte for byte
    python3 oracle/stored.py write     makes them anew

A folder crates/tests_.. that is not listed here is reported. The desk program has one whole input.
"""

import os
import sys
from itertools import chain

import desk_cases
from desk import desk
from lines import LONGEST
from vectors import comparisons, doubles, field, gate, lines, marked, pair_of

CRATES = os.path.join(os.path.dirname(os.path.dirname(os.path.abspath(__file__))), "crates")

SPLITS = ("whole", "pieces of 1", "pieces of 7", f"pieces of {LONGEST + 1}")


def split_streams():
    """Inputs of the desk; `tests_desk` splits each in four ways, and all must print the same."""
    for number, given in enumerate(desk_cases.streams(), 1):
        printed = desk(given).decode()
        told = [f"# {number}, {split}\n{printed}" for split in SPLITS]
        yield given.hex(), "".join(told).removesuffix("\n"), None


# by the byte that names each
PARTS = (comparisons, doubles, lines)


def parts():
    """The questions of each part, after the byte that names it; the answers as they are."""
    for number, cases in enumerate(PARTS):
        for given, told, refusal in cases():
            yield field(number, 1) + given, told, refusal


# what each program is run on; the output of a program must stay below 1 MiB
PROGRAMS = {
    "tests_desk": split_streams,
    "tests_parts": parts,
    "tests_sums": lambda: chain(marked(), gate()),
}
MOST_OUTPUT = 2**20 - 1


def content(path):
    if not os.path.exists(path):
        return None
    with open(path, "rb") as file:
        return file.read()


def first_difference(old, new):
    """The first line that differs, counted from 1."""
    pairs = zip(old.split(b"\n"), new.split(b"\n"))
    for number, (a, b) in enumerate(pairs, 1):
        if a != b:
            return number
    return min(old.count(b"\n"), new.count(b"\n")) + 1


def compared(name, path, made):
    old = content(path)
    if old == made:
        return True
    place = "is missing" if old is None else f"differs from line {first_difference(old, made)} on"
    print(f"{name}: {os.path.basename(path)} {place}")
    return False


def made_for(name):
    """A program's input, its output, and how many cases that is."""
    if name == "desk":
        given = desk_cases.gate_input()
        return given, desk(given), (given.count(b"\n") + 2) // 3
    given, told, refusals = pair_of(PROGRAMS[name]())
    return given, told, refusals.total()


def handle(name, write):
    """Writes or compares one program's two files; whether all is well."""
    given, told, cases = made_for(name)
    if len(told) > MOST_OUTPUT:
        print(f"{name}: {len(told)} bytes of output are too many")
        return False
    files = [(os.path.join(CRATES, name, end), text) for end, text in (("stdin", given), ("stdout", told))]
    if write:
        for path, text in files:
            with open(path, "wb") as file:
                file.write(text)
    well = all([compared(name, path, text) for path, text in files])
    if well:
        print(f"{name}: {cases} cases, {len(given)} and {len(told)} bytes, as made today")
    return well


def main(write):
    well = True
    for name in sorted(os.listdir(CRATES)):
        if name == "desk" or name.startswith("tests_"):
            if name not in PROGRAMS and name != "desk":
                print(f"{name}: nothing makes its files")
                well = False
            else:
                well &= handle(name, write)
    return 0 if well else 1


if __name__ == "__main__":
    if sys.argv[1:] not in ([], ["write"]):
        sys.exit("usage: python3 oracle/stored.py [write]")
    sys.exit(main(sys.argv[1:] == ["write"]))
