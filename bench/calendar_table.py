#!/usr/bin/env python3
"""Writes crates/ldar_days_table/data/calendar.txt: the calendar as Python's datetime has it.

One line a month, from 2008-01 to 2099-12, with these fields, separated by one space:
  the number of its first day (days since 1970-01-01), how many days it has,
  and six checksums, each over the values of all its days in order:
    months    each day's month, as year * 12 + month - 1, and its place in the month
    texts     the ten bytes of YYYY-MM-DD
    weeks     the week from Monday to Sunday, where week 1 begins with 1970-01-05
    days      the days that are DAYS days later, at most 2099-12-31
    sums      the days that are MONTHS months later, clamped to the month's last day and to 2099-12-31
    quarters  the first month of quarter 1 of a unit that starts up on the day; up to 2097-12-31
A checksum begins with 0, and each value makes it (checksum xor value) * 1099511628211 modulo 2 ** 64.
"""
import pathlib
from calendar import monthrange
from datetime import date, timedelta

FIRST, LAST, LAST_STARTUP = date(2008, 1, 1), date(2099, 12, 31), date(2097, 12, 31)
EPOCH, WEEK_1 = date(1970, 1, 1), date(1970, 1, 5)
DAYS = [*range(63), 180, 181, 366, 20_000, 4_294_967_295]
MONTHS = [*range(121), 600, 1_103, 4_294_967_295]


def number(day):
    return (day - EPOCH).days


def days_later(day, days):
    return LAST if days > (LAST - day).days else day + timedelta(days=days)


def months_later(day, months):
    year, month = divmod(day.year * 12 + day.month - 1 + months, 12)
    if year > LAST.year:
        return LAST
    return date(year, month + 1, min(day.day, monthrange(year, month + 1)[1]))


def last_of(year, month):
    return date(year, month, monthrange(year, month)[1])


def first_quarter(startup):
    """The month, two before the last one all of whose days are among startup + 1 to startup + 180."""
    whole = [
        day
        for day in (startup + timedelta(days=n) for n in range(1, 181))
        if day.day == 1 and (last_of(day.year, day.month) - startup).days <= 180
    ]
    return whole[-1].year * 12 + whole[-1].month - 1 - 2


def checksum(values):
    sum_so_far = 0
    for value in values:
        sum_so_far = (sum_so_far ^ value) * 1_099_511_628_211 % 2**64
    return sum_so_far


def line(year, month):
    days = [date(year, month, n + 1) for n in range(monthrange(year, month)[1])]
    fields = [
        number(days[0]),
        len(days),
        checksum(n for day in days for n in (day.year * 12 + day.month - 1, day.day)),
        checksum(byte for day in days for byte in day.isoformat().encode()),
        checksum((day - timedelta(days=day.weekday()) - WEEK_1).days // 7 + 1 for day in days),
        checksum(number(days_later(day, n)) for day in days for n in DAYS),
        checksum(number(months_later(day, n)) for day in days for n in MONTHS),
        checksum(first_quarter(day) for day in days if day <= LAST_STARTUP),
    ]
    return " ".join(map(str, fields)) + "\n"


table = pathlib.Path(__file__).parent.parent / "crates/ldar_days_table/data/calendar.txt"
table.parent.mkdir(parents=True, exist_ok=True)
table.write_text("".join(line(year, month) for year in range(FIRST.year, LAST.year + 1) for month in range(1, 13)))
