#!/usr/bin/env python3
"""Works out again, from the figures that NIST Technical Note 1337 prints and with exact fractions, every line that the program `printed`
prints, and compares the text with the program's stored output. Nothing here is shared with the library."""
import sys
from fractions import Fraction
from math import isqrt

# Section IV: the data values in 10^-5, the first differences squared in 10^-10, and what is made of them.
VALUES = "4.36 4.61 3.19 4.21 4.47 3.96 4.10 3.08"
SQUARES = "0.06 2.02 1.04 0.07 0.26 0.02 1.04"
SUM, COUNT, VARIANCE, DEVIATION = "4.51", "7", "3.2", "5.6"
# The error bar of 10^-12 with kappa 0.77 and M = 100: the half as a part of the deviation, and the same in two digits.
KAPPA, INTERVALS, HALVES = "0.77", 100, ("0.077", "0.08")


def in_digits(x, like, half=Fraction(1, 2)):
    """x with as many decimals as the printed figure: rounded, a half up, or cut off where the half is 0."""
    places = len(like.partition(".")[2])
    n = (x * 10**places + half).__floor__()
    return f"{n // 10**places}.{n % 10**places:0{places}}" if places else str(n)


def verdict(ours, printed, power=""):
    return f"{ours}{power}, printed {printed}{power}: {'agrees' if ours == printed else 'differs'}"


def rounded(x, printed, power=""):
    return f"rounded {verdict(in_digits(x, printed), printed, power)}"


def allan():
    """From the frequency values themselves; no phase is made here."""
    values = [Fraction(v) for v in VALUES.split()]
    squares = [(b - a) ** 2 for a, b in zip(values, values[1:])]
    for square, printed in zip(squares, SQUARES.split()):
        yield f"first difference squared {square * 10**4} in 10^-14, {rounded(square, printed, 'e-10')}"
    total, count = sum(squares), len(squares)
    yield f"sum {total * 10**4} in 10^-14, {rounded(total, SUM, 'e-10')}"
    yield f"count {verdict(str(count), COUNT)}"
    variance = total / (2 * count)
    yield f"variance {variance * 10**4} in 10^-14, {rounded(variance * 10, VARIANCE, 'e-11')}"
    square = variance * 10**4 * 2**40
    r = isqrt(square.numerator // square.denominator)
    shown = Fraction(r, 2**20) / 10
    yield f"deviation {r}/1048576 in 10^-7, {rounded(shown, DEVIATION, 'e-6')}"
    yield f"deviation {r}/1048576 in 10^-7, cut off {verdict(in_digits(shown, DEVIATION, 0), DEVIATION, 'e-6')}"


def bar():
    """The half is kappa times the deviation over the root of M, which is 10."""
    half = Fraction(KAPPA) / isqrt(INTERVALS)
    for side in "above", "below":
        for printed in HALVES:
            yield f"half of the bar {side} {half * 10**6}/1000000, {rounded(half, printed)}"


def main():
    text = "".join(line + "\n" for part in (allan, bar) for line in part())
    if len(sys.argv) < 2:
        sys.stdout.write(text)
        return
    stored = open(sys.argv[1], encoding="ascii").read()
    for i, (ours, theirs) in enumerate(zip(text.splitlines(), stored.splitlines()), 1):
        if ours != theirs:
            sys.exit(f"{sys.argv[1]}:{i}: stored  {theirs}\n{' ' * len(sys.argv[1])} worked  {ours}")
    if text != stored:
        sys.exit(f"{sys.argv[1]} has {len(stored.splitlines())} lines, and {len(text.splitlines())} were worked out")
    print(f"printed: {len(text.splitlines())} lines agree")


main()
