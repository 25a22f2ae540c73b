"""Three tasks with formats of dates.

tasks.py log CONFIG [MOMENT] < MESSAGES    writes each line after the time, by the format under `timestamp` of a TOML file
tasks.py column FROM TO < IN.csv           rewrites the dates of the first column; a line whose date isn't read stays as it is
tasks.py check < FORMATS                   says for each format how long a date gets, or what is wrong
"""

import datetime
import sys
import tomllib

from timefd import Error, Format, InvalidDescription


def refused(error):
    return f"{error}; the nearest word is `{error.nearest}`" if error.nearest else str(error)


def log(config, moment=None):
    try:
        with open(config, "rb") as file:
            timestamp = Format(tomllib.load(file)["timestamp"])
    except InvalidDescription as error:
        sys.exit(refused(error))
    now = datetime.datetime.fromisoformat(moment) if moment else datetime.datetime.now().astimezone()
    for line in sys.stdin:
        print(timestamp.format(now), line, end="")


def column(source, target):
    source, target = Format(source), Format(target)
    for number, line in enumerate(sys.stdin, 1):
        date, *others = line.split(",")
        try:
            date = target.format(source.read_date(date))
        except Error as error:
            print(f"line {number}: {error}", file=sys.stderr)
        print(date, *others, sep=",", end="")


def check():
    for text in sys.stdin.read().splitlines():
        try:
            print(f"{text}: at most {Format(text).max_bytes} bytes")
        except InvalidDescription as error:
            print(f"{text}: {refused(error)}")


if __name__ == "__main__":
    {"log": log, "column": column, "check": check}[sys.argv[1]](*sys.argv[2:])
