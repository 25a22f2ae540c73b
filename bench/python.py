#!/usr/bin/env python3
"""Times calls of the module for Python beside those of `datetime`, in nanoseconds of processor time.

    bench/python.py [CALLS]    by default a million of each
"""
import datetime
import pathlib
import sys
import time

sys.dont_write_bytecode = True
sys.path.insert(0, str(pathlib.Path(__file__).resolve().parent.parent / "bindings/python"))

import timefd

DATE = datetime.date(2026, 11, 23)
MOMENT = datetime.datetime(2026, 11, 23, 5, 36, 7, 123456, datetime.timezone.utc)
DAY = timefd.Format("[day]/[month]/[year]")
TEXT = "2026-11-23T05:36:07.123456+00:00"
STRFTIME = "%Y-%m-%dT%H:%M:%S.%f%z"
ISO = timefd.Format("[year]-[month]-[day]T[hour]:[minute]:[second].[subsecond digits:6][offset_hour sign:mandatory]:[offset_minute]")

CALLS = {
    "`date.strftime`": lambda: DATE.strftime("%d/%m/%Y"),
    "`Format.format` of a date": lambda: DAY.format(DATE),
    "`timefd.format` of a date": lambda: timefd.format("[day]/[month]/[year]", DATE),
    "`datetime.strftime`, with `%f` and `%z`": lambda: MOMENT.strftime(STRFTIME),
    "`Format.format` of a datetime, with offset": lambda: ISO.format(MOMENT),
    "`datetime.strptime` of a date": lambda: datetime.datetime.strptime("23/11/2026", "%d/%m/%Y"),
    "`Format.read_date`": lambda: DAY.read_date("23/11/2026"),
    "`datetime.strptime`, with `%f` and `%z`": lambda: datetime.datetime.strptime(TEXT, STRFTIME),
    "`Format.read_datetime`, with offset": lambda: ISO.read_datetime(TEXT),
    "`timefd.check`": lambda: timefd.check("[day]/[month]/[year]"),
    "`Format(..)`": lambda: timefd.Format("[day]/[month]/[year]"),
}


def nanoseconds(call, count):
    """The processor time of one of so many calls."""
    began = time.process_time_ns()
    for _ in range(count):
        call()
    return (time.process_time_ns() - began) / count


def main():
    count = int(sys.argv[1]) if sys.argv[1:] else 1_000_000
    print(f"Python {sys.version.split()[0]}, {count} calls each\n\n| Call | ns |\n|---|---|")
    for name, call in CALLS.items():
        print(f"| {name} | {nanoseconds(call, count):.0f} |", flush=True)


if __name__ == "__main__":
    main()
