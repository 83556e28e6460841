#!/usr/bin/env python3
"""The almanac of 1900 to 2099, from Python's own calendar and nothing of this repository.

Writes the text that the program `almanac` is held to:  python3 tests/almanac.py > crates/almanac/stdout
One line for each year, seven numbers in decimal with one space between them:

    YEAR FIRST WEEKDAY DAYS WEEKS FIRST_WEEK LAST_WEEK

YEAR        1900 to 2099
FIRST       the number of its 1 January, counted from 1 January 1900 = 0
WEEKDAY     the weekday of its 1 January, from Monday 1 to Sunday 7
DAYS        its length
WEEKS       its number of ISO 8601 weeks: the week of its 28 December
FIRST_WEEK  the ISO week of its 1 January (it may belong to the year before)
LAST_WEEK   the ISO week of its 31 December (it may belong to the year after)
"""
from datetime import date

ZERO = date(1900, 1, 1)


def week(d):
    return d.isocalendar()[1]


for year in range(1900, 2100):
    first, last = date(year, 1, 1), date(year, 12, 31)
    print(
        year,
        (first - ZERO).days,
        first.isoweekday(),
        (last - first).days + 1,
        week(date(year, 12, 28)),
        week(first),
        week(last),
    )
