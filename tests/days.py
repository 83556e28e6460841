"""Holds the model's calendar, a line for each day on standard input, to Python's datetime: another source, written by others."""

import datetime
import sys

first = datetime.date(1900, 1, 1)
days = (datetime.date(2099, 12, 31) - first).days + 1
lines = sys.stdin.read().splitlines()
if len(lines) != days:
    sys.exit(f"days: {len(lines)} days, and Python has {days}")
for number, line in enumerate(lines):
    d = first + datetime.timedelta(days=number)
    there = f"{number} {d.day} {d.month} {d.year} {d.isoweekday()} {d.isocalendar()[1]}"
    if line != there:
        sys.exit(f"days: the model has '{line}', Python '{there}'")
print(f"the model's calendar is Python's: {days} days")
