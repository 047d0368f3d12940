#!/usr/bin/env python3
"""Good days of the TARGET calendar from 2000-01-01 to 2199-12-31, by Python's datetime and the anonymous Gregorian algorithm for Easter.

Prints their number, and a checksum of their day numbers: from 0, for each good day in order, times 31 plus the day number, modulo 2^64.
"""
from datetime import date, timedelta


def easter(year):
    a, b, c = year % 19, year // 100, year % 100
    d, e, f = b // 4, b % 4, (b + 8) // 25
    g = (b - f + 1) // 3
    h = (19 * a + b - d - g + 15) % 30
    i, k = c // 4, c % 4
    l = (32 + 2 * e + 2 * i - h - k) % 7
    m = (a + 11 * h + 22 * l) // 451
    month, day = divmod(h + l - 7 * m + 114, 31)
    return date(year, month, day + 1)


def is_good(day):
    if day.weekday() >= 5 or (day.month, day.day) in ((1, 1), (5, 1), (12, 25), (12, 26)):
        return False
    return day not in (easter(day.year) - timedelta(2), easter(day.year) + timedelta(1))


first = date(2000, 1, 1)
count = checksum = 0
for number in range(73049):
    if is_good(first + timedelta(number)):
        count += 1
        checksum = (31 * checksum + number) % 2**64
print(count, checksum)
