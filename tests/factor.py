#!/usr/bin/env python3
"""A second implementation of `factor`, in exact rational arithmetic and apart from the engine's code.

    python3 tests/factor.py BENCHMARK RULE < input

It keeps the exact factor as a fraction. The bounds come from the rules in docs/ACCRUAL.md, the reported rate from
floor(q + 1/2). The program also asserts what the engine proves: the bounds enclose the exact factor, they are at most
3 units an observation apart, and the reported rate is the exact rate rounded, or one place less where it is not settled.
"""
import sys
from fractions import Fraction
from math import ceil, floor

BASE = {"SOFR": 360, "SONIA": 365, "ESTR": 360}
STEP = {"SOFR": 100, "SONIA": 1, "ESTR": 10}
U = 10**12
REASON = {
    1: "a field is cut short, is not due here or has a false count",
    2: "a benchmark, date or rate is outside its values, or a rate is off the step",
    10: "a floor, amount, margin, rule, lag, shift, lockout or weight is outside its limits",
    17: "the sum of weights would pass 400",
}


def nearest(q):
    return floor(q + Fraction(1, 2))


def number(word):
    """A decimal number that 64 bits hold, or none."""
    digits = word[1:] if word[:1] in ("+", "-") else word
    if not (digits.isascii() and digits.isdigit()):
        return None
    value = int(word)
    return value if -(2**63) <= value < 2**63 else None


class Coupon:
    def __init__(self, benchmark, rule):
        self.n = BASE[benchmark]
        self.b = self.n * 10**6
        self.rule = rule
        self.count = self.weight = 0
        self.lo = self.hi = U
        self.exact = Fraction(1)

    def observe(self, rate, weight):
        self.count += 1
        self.weight += weight
        part = Fraction(rate * weight, self.b)
        if self.rule == "compounded":
            self.lo += floor(self.lo * part)
            self.hi += ceil(self.hi * part)
            self.exact *= 1 + part
        else:
            self.lo += floor(U * part)
            self.hi += ceil(U * part)
            self.exact += part
        self.check()

    def rate(self, bound):
        return nearest(Fraction((bound - U) * self.n, 10**5 * self.weight))

    def exact_rate(self):
        return (self.exact - 1) * self.n * 10**7 / self.weight

    def settled(self):
        return self.rate(self.lo) == self.rate(self.hi)

    def check(self):
        assert self.lo <= U * self.exact <= self.hi
        assert self.hi - self.lo <= 3 * self.count
        assert Fraction(1, 2) <= self.exact <= 2
        reported, exact = self.rate(self.lo), nearest(self.exact_rate())
        assert exact == reported or (not self.settled() and exact == reported + 1)

    def amount(self, principal, margin, days):
        return nearest(Fraction(principal * (self.rate(self.lo) + margin) * days, self.n * 10**7))


def judged(coupon, benchmark, line):
    words = line.split()
    if len(words) != 2:
        return 1
    rate, weight = number(words[0]), number(words[1])
    if rate is None or weight is None:
        return 1
    if abs(rate) > 250_000 or rate % STEP[benchmark]:
        return 2
    if not 1 <= weight <= 15:
        return 10
    if coupon.weight + weight > 400:
        return 17
    coupon.observe(rate, weight)
    return 0


def main():
    benchmark, rule = sys.argv[1:]
    coupon = Coupon(benchmark, rule)
    for i, line in enumerate(sys.stdin.read().splitlines(), 1):
        refusal = judged(coupon, benchmark, line)
        if refusal:
            print(f"line {i} refused: {refusal}, {REASON[refusal]}")
        else:
            mark = "y" if coupon.settled() else "n"
            print(coupon.count, coupon.lo, coupon.hi, coupon.rate(coupon.lo), mark)


if __name__ == "__main__":
    main()
