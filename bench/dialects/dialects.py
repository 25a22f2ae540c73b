#!/usr/bin/env python3
"""Compares what `timefd_format` writes by formats of Python, C, GNU date, Ruby and Java with what these programs write themselves, of
random formats and moments; and reads back what they wrote by those formats that begin with a whole date and time.

    bench/dialects/dialects.py [COUNT] [SEED]    COUNT formats of each, by default 500

A format is made of rows of `tables/dialects`, whose texts write the same for all these moments: from the year 1970 to 9999, with offsets of
whole minutes. It takes the program in out/, which ./build makes, or that of $TIMEFD_PROGRAMS. What isn't installed is named, and left out.
"""
import ctypes
import datetime
import os
import pathlib
import random
import shutil
import subprocess
import sys

sys.dont_write_bytecode = True

HERE = pathlib.Path(__file__).resolve().parent
TOP = HERE.parent.parent
sys.path[:0] = [str(TOP / "tables")]

import dialects

PROGRAM = str(pathlib.Path(os.environ.get("TIMEFD_PROGRAMS", TOP / "out"), "timefd_format").absolute())
MOMENTS = 8
# None is a colon: after an offset, the digits that follow a colon would be its seconds.
SEPARATORS = (" ", "/", ", ", "_", ".", " | ")


class Tm(ctypes.Structure):
    _fields_ = [(name, ctypes.c_int) for name in "sec min hour mday mon year wday yday isdst".split()] + [
        ("gmtoff", ctypes.c_long), ("zone", ctypes.c_char_p)]


def by_python(format_, moment):
    return moment.strftime(format_)


def by_c(format_, moment):
    tuple_, libc = moment.timetuple(), ctypes.CDLL(None)
    tm = Tm(tuple_.tm_sec, tuple_.tm_min, tuple_.tm_hour, tuple_.tm_mday, tuple_.tm_mon - 1, tuple_.tm_year - 1900,
            (tuple_.tm_wday + 1) % 7, tuple_.tm_yday - 1, 0, int(moment.utcoffset().total_seconds()), b"")
    room = ctypes.create_string_buffer(4096)
    count = libc.strftime(room, 4096, (format_ + "|").encode(), ctypes.byref(tm))
    return room.raw[: count - 1].decode()


def by_date(format_, moment):
    minutes = int(moment.utcoffset().total_seconds() // 60)
    zone = f"<ZONE>{'-' if minutes > 0 else '+'}{abs(minutes) // 60:02}:{abs(minutes) % 60:02}"
    ran = subprocess.run(["date", "-d", moment.isoformat(), "+" + format_], env={**os.environ, "TZ": zone, "LC_ALL": "C"},
                         capture_output=True, text=True, check=True)
    return ran.stdout[:-1]


def in_batch(command, rows):
    """What a program answers to all rows: a format, a tab and the fields of a moment in a line each."""
    text = "".join(f"{format_}\t{m.year} {m.month} {m.day} {m.hour} {m.minute} {m.second} {m.microsecond} "
                   f"{int(m.utcoffset().total_seconds())}\n" for format_, m in rows)
    return subprocess.run(command, input=text, capture_output=True, text=True, check=True).stdout.split("\n")[:-1]


def one_by_one(write):
    return lambda rows: [write(*row) for row in rows]


# Each dialect's program, what has to be installed for it, a whole date and time, and directives that are left out: `%s`, which in C and
# Python counts in the process's zone, and is read in UTC, and `%Q`, which is that of Ruby's `DateTime`.
PERCENTS = "%Y-%m-%dT%H:%M:%S "
ORACLES = {
    "python": (one_by_one(by_python), None, PERCENTS, {"s"} if sys.version_info >= (3, 12) else {"s", ":z"}),
    "c": (one_by_one(by_c), None, PERCENTS, {"s"}),
    "gnu": (one_by_one(by_date), "date", PERCENTS, {"s"}),
    "ruby": (lambda rows: in_batch(["ruby", str(HERE / "write.rb")], rows), "ruby", PERCENTS, {"Q", "s"}),
    "java": (lambda rows: in_batch(["java", str(HERE / "Write.java")], rows), "javac", "uuuu-MM-dd'T'HH:mm:ss ", set()),
}


def moment():
    day = datetime.datetime(1970, 1, 2) + datetime.timedelta(seconds=random.randrange(8029 * 365 * 86400))
    offset = datetime.timezone(datetime.timedelta(minutes=random.randrange(-14 * 60, 14 * 60 + 1)))
    return day.replace(microsecond=random.choice((0, 250000, random.randrange(10**6))), tzinfo=offset)


def formats(name, whole, left_out, count):
    """Formats; each second one begins with a whole date and time. None has two fractions of a second, which would contradict each other where
    one is cut."""
    rows = {text: row["v3"] for text, row in dialects.rows_of(name).items()
            if "v3" in row and not set("\n\t") & set(row["v3"]) and text.lstrip("%-_0^#") not in left_out}
    for at in range(count):
        parts = random.choices(list(rows), k=random.randrange(1, 7))
        while sum("subsecond" in rows[it] for it in parts) > 1:
            parts = random.choices(list(rows), k=random.randrange(1, 7))
        yield (whole if at % 2 else "") + "".join(it + random.choice(SEPARATORS) for it in parts)


def ours(*words):
    ran = subprocess.run([PROGRAM, "--quiet", *words], capture_output=True, text=True, check=False)
    return ran.stdout.split("\n")[:-1], ran.stderr


def read_back(name, format_, texts):
    """Whether the texts are read by the format, and written again; `None` if the format is refused to read by."""
    found, reported = ours("--language", name, "--read", format_, "--", format_, *texts)
    return None if "of the format: " in reported else found == texts


def compare(name, count):
    write, _, whole, left_out = ORACLES[name]
    rows = [(it, [moment() for _ in range(MOMENTS if name != "gnu" else 2)]) for it in formats(name, whole, left_out, count)]
    wanted = iter(write([(it, one) for it, moments in rows for one in moments]))
    written = differ = refused = read = 0
    for format_, moments in rows:
        texts = [next(wanted) for _ in moments]
        found, reported = ours("--language", name, "--", format_, *(it.isoformat() for it in moments))
        written += len(texts)
        if found != texts:
            differ += 1
            print(f"{name}: {format_!r} of {moments[0].isoformat()}: {texts[:1]} wanted, {found[:1]} {reported[:200]}")
        if not format_.startswith(whole):
            continue
        is_read = read_back(name, format_, texts)
        refused += is_read is None
        read += bool(is_read)
        if is_read is False:
            differ += 1
            print(f"{name}: not read back by {format_!r}: {texts[:1]}")
    print(f"{name}: {count} formats, {written} texts, {differ} formats differ; {read} formats read back, {refused} refused to read by")
    return differ


def main(words):
    if not pathlib.Path(PROGRAM).is_file():
        sys.exit(f"dialects.py: there is no {PROGRAM}: ./build makes it")
    count, seed = int(words[0]) if words else 500, int(words[1]) if len(words) > 1 else 1
    random.seed(seed)
    differ = 0
    for name, (_, program, _, _) in ORACLES.items():
        if program and not shutil.which(program):
            print(f"{name}: SKIPPED: there is no `{program}` here")
        else:
            differ += compare(name, count if name != "gnu" else min(count, 200))
    return 1 if differ else 0


if __name__ == "__main__":
    sys.exit(main(sys.argv[1:]))
