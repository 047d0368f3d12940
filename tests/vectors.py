#!/usr/bin/env python3
"""Prints the expected values of the tests in crates/vectors, worked out by the second implementation in factor.py."""
from fractions import Fraction

from factor import Coupon, nearest

RUNS = [
    ("SOFR", [(53100, 1), (53200, 3), (53000, 1)]),
    ("SONIA", [(51896, 1), (51899, 3), (-1, 15)]),
    ("ESTR", [(39100, 5), (39050, 1)]),
    ("ESTR", [(-5900, 1), (-5910, 3)]),
    ("SOFR", [(250000, 10)] * 40),
    ("SOFR", [(-250000, 10)] * 40),
    ("SONIA", [(250000, 15)] * 26),
    ("SONIA", [(-250000, 15)] * 26),
    ("ESTR", [(0, 15)] * 26),
]

AMOUNTS = [
    (360, 100_000_000, 390_952, 0, 6),
    (360, 100_000_000, 390_952, -25_000, 6),
    (365, 1_000_000_000, 3_660_000_000, 1_000_000, 400),
    (365, 1_000_000_000, -3_660_000_000, -1_000_000, 400),
    (360, 1, 1_800_000, 0, 1000),
    (360, 1, -1_800_000, 0, 1000),
    (360, 1, -1_800_001, 0, 1000),
    (360, 1_000_000_000, 3_660_000_000, 1_000_000, 2**32 - 1),
]

for benchmark, seen in RUNS:
    for rule in ("compounded", "simple"):
        coupon = Coupon(benchmark, rule)
        for rate, weight in seen:
            coupon.observe(rate, weight)
        shown = seen if len(seen) < 9 else f"{seen[0]} x {len(seen)}"
        print(benchmark, rule, shown, coupon.count, coupon.lo, coupon.hi, coupon.rate(coupon.lo), coupon.settled())

for n, principal, rate, margin, days in AMOUNTS:
    print(n, principal, rate, margin, days, nearest(Fraction(principal * (rate + margin) * days, n * 10**7)))
