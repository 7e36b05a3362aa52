#!/usr/bin/env python3
"""Write the cases of crates/number_cases and the lines that it must print: the files stdin and stdout of a folder.

The rules are worked out here on Python's whole numbers and fractions, from the text alone and not from the code that is tested.
"""
import argparse
import fractions
import itertools
import math
import pathlib

LOWEST, HIGHEST = -(2**31), 2**31 - 1
# -3 and 3 by 5 are the temperatures on both sides of 0 that have to be in different classes of five degrees.
NUMBERS = [LOWEST, LOWEST + 1, -46341, -7, -5, -3, -2, -1, 0, 1, 2, 3, 5, 7, 46341, HIGHEST - 1, HIGHEST]
UNDEFINED = None
EVALUATE, COMPARE, READ, WRITE = range(4)
LAST_PLACE = 2**64 - 1


def quotient(a, b):
    """The greatest whole number not above the exact quotient."""
    return math.floor(fractions.Fraction(a, b))


def remainder(a, b):
    """What the dividend has beyond the divisor times that quotient; 0, or of the divisor's sign."""
    return a - b * quotient(a, b)


def operation(number, a, b):
    if number in (4, 5) and b == 0:
        return UNDEFINED
    exact = [
        lambda: a,
        lambda: a + b,
        lambda: a - b,
        lambda: a * b,
        lambda: quotient(a, b),
        lambda: remainder(a, b),
    ][number]()
    return exact if LOWEST <= exact <= HIGHEST else UNDEFINED


def evaluate(number, left, right):
    if number == 0:
        return left
    if number > 5 or left is UNDEFINED or right is UNDEFINED:
        return UNDEFINED
    return operation(number, left, right)


def compare(number, left, right):
    if number > 5 or left is UNDEFINED or right is UNDEFINED:
        return UNDEFINED
    return [left == right, left != right, left < right, left <= right, left > right, left >= right][number]


def shown(value):
    return {None: "undefined", True: "true", False: "false"}[value] if value is None or isinstance(value, bool) else str(value)


def side(value):
    return bytes(5) if value is UNDEFINED else b"\1" + value.to_bytes(4, "little", signed=True)


def sides(kind, name, rule, number, left, right):
    line = f"{name} {number} {shown(left)} {shown(right)}: {shown(rule(number, left, right))}"
    return bytes([kind, number]) + side(left) + side(right), line


def read(number, ten):
    at = LAST_PLACE if number == 255 else number
    case = bytes([READ, number]) + ten
    word = (case[at : at + 4] + bytes(4))[:4]
    signed = int.from_bytes(word, "little", signed=True)
    return case, f"read {at}: {word[0]} {int.from_bytes(word, 'little')} {signed}"


def write(number, value):
    word = value.to_bytes(4, "little", signed=True)
    eight = bytes(number) + word + bytes(4 - number)
    return bytes([WRITE, number]) + word + bytes(6), f"write {number} {value}: {' '.join(map(str, eight))} {value}"


def cases():
    pairs = list(itertools.product(NUMBERS, NUMBERS))
    unusual = [(7, UNDEFINED), (UNDEFINED, 7), (UNDEFINED, UNDEFINED)]
    for kind, name, rule in ((EVALUATE, "evaluate", evaluate), (COMPARE, "compare", compare)):
        for number in range(6):
            for left, right in pairs + unusual:
                yield sides(kind, name, rule, number, left, right)
        for number in (6, 255):
            for left, right in [(0, 0), (7, -7), (LOWEST, HIGHEST)] + unusual:
                yield sides(kind, name, rule, number, left, right)
    for ten in (bytes(range(1, 11)), bytes([255] * 10), bytes([0, 0, 0, 128, 255, 255, 255, 127, 1, 128])):
        for number in list(range(14)) + [254, 255]:
            yield read(number, ten)
    for number in range(5):
        for value in NUMBERS + [305419896, -305419896]:
            yield write(number, value)


def main():
    stored = pathlib.Path(__file__).resolve().parent.parent / "crates" / "number_cases"
    parser = argparse.ArgumentParser(description=__doc__)
    parser.add_argument("folder", nargs="?", type=pathlib.Path, default=stored, help="where to write both (default: crates/number_cases)")
    folder = parser.parse_args().folder
    done = list(cases())
    (folder / "stdin").write_bytes(b"".join(case for case, _ in done))
    (folder / "stdout").write_text("".join(line + "\n" for _, line in done))
    print(len(done), "cases")


main()
