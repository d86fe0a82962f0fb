#!/usr/bin/env python3
"""A second implementation of the kinds of number, written apart from the proved code.

Writes what crates/kindcases has to print:

    python3 tools/kindcases.py > crates/kindcases/stdout
"""
from fractions import Fraction

LIMIT = 2_147_483_647
MODULUS = 9_973

NUMBERS = [
    (0, 1), (1, 1), (-1, 1), (2, 1), (-3, 1), (1, 2), (-1, 2), (2, 3), (-5, 6), (7, 10),
    (46_340, 1), (46_341, 1), (1, 46_340), (-1, 46_341), (9_973, 1), (1_000_000_000, 1),
    (LIMIT, 1), (-LIMIT, 1), (1, LIMIT), (-1, LIMIT - 1), (LIMIT, LIMIT - 1), (1 - LIMIT, LIMIT),
    (65_536, 1), (1, 32_768), (-32_768, 1),
]


class Refused(Exception):
    pass


class Frac:
    mark, longest = "FRAC", 22

    @staticmethod
    def number(n, d):
        return Fraction(n, d)

    @staticmethod
    def checked(x):
        if abs(x.numerator) > LIMIT or x.denominator > LIMIT:
            raise Refused(14)
        return x

    @staticmethod
    def over(a, b):
        return a / b

    @staticmethod
    def text(x):
        return str(x)

    @staticmethod
    def heavier(a, b):
        return abs(a) > abs(b)


class Rest:
    mark, longest = "REST", 4

    @staticmethod
    def number(n, d):
        return Rest.over(n % MODULUS, d % MODULUS)

    @staticmethod
    def checked(x):
        return x % MODULUS

    @staticmethod
    def over(a, b):
        return a * pow(b, MODULUS - 2, MODULUS) % MODULUS

    @staticmethod
    def text(x):
        return "%04d" % x

    @staticmethod
    def heavier(a, b):
        return a != 0 and b == 0


def shown(kind, compute):
    try:
        return kind.text(kind.checked(compute()))
    except Refused as refused:
        return "refused:%d" % refused.args[0]


def quotient(kind, a, b):
    if b == 0:
        raise Refused(12)
    return kind.over(a, b)


def pair(kind, a, b):
    results = [
        shown(kind, lambda: a + b),
        shown(kind, lambda: a - b),
        shown(kind, lambda: a * b),
        shown(kind, lambda: quotient(kind, a, b)),
    ]
    told = [str(t).lower() for t in (a == 0, a == b, kind.heavier(a, b))]
    return " %s %s: %s" % (kind.text(a), kind.text(b), " ".join(results + told))


def main():
    for kind in (Frac, Rest):
        print(kind.mark, kind.longest)
        for n, d in NUMBERS:
            for m, e in NUMBERS:
                print(pair(kind, kind.number(n, d), kind.number(m, e)))
    texts = ["refused:12"] + ["%04d" % Rest.over(1, n) for n in range(1, MODULUS)]
    for start in range(0, MODULUS, 20):
        print("".join(" " + text for text in texts[start:start + 20]))
    print(MODULUS - 1)


main()
