#!/usr/bin/env python3
"""Writes random moments by two hundred descriptions, reads the texts back, and compares what they determine.

    fuzz/round_trip.py PROGRAM [MOMENTS]

PROGRAM is the built `timefd_format`, MOMENTS how many moments each description gets (5,000: a million in all). Each text is
read by the description that wrote it: what was read has to be the moment's, in a form that shows all that the description
determines, and has to give the same text again.
"""

import calendar
import itertools
import random
import subprocess
import sys

SEED = 20_261_123
DESCRIPTIONS = 200

# What is written, and what it determines.
DATE = '[year range:extended]-[month]-[day]'
DATES = [(text, DATE) for text in [
    DATE,
    '[year range:extended]-[ordinal]',
    '[year range:extended base:iso_week]-W[week_number]-[weekday repr:monday]',
    '[year range:extended] [week_number repr:sunday] [weekday]',
    '[year range:extended] [week_number repr:monday] [weekday repr:short]',
    '[day padding:none]/[month padding:none]/[year range:extended padding:none]',
    '[day padding:space] [month repr:short] [year range:extended padding:space]',
    '[month repr:long] [day], [year range:extended sign:mandatory]',
    '[weekday case_sensitive:false], [day] [month repr:long case_sensitive:false] [year range:extended]',
    '[year repr:century range:extended] [year repr:last_two]-[month]-[day]',
    '[weekday repr:sunday]: [year range:extended] [ordinal padding:space]',
    '[weekday repr:sunday one_indexed:false]: [year range:extended] [ordinal padding:none]',
    '[ordinal]. [month], [week_number] [week_number repr:sunday]: [year range:extended]-[month]-[day]',
]]

SECOND = '[hour]:[minute]:[second]'
NANOSECOND = f'{SECOND}.[subsecond digits:9]'
TIMES = [
    (NANOSECOND, NANOSECOND),
    (f'{SECOND}.[subsecond]', NANOSECOND),
    ('[hour][minute][second][subsecond digits:9]', NANOSECOND),
    ('[hour repr:12]:[minute]:[second].[subsecond] [period]', NANOSECOND),
    ('[hour padding:none]h[minute padding:none]m[second padding:none]s', SECOND),
    ('[hour repr:12]:[minute]:[second] [period] [hour]', SECOND),
    (f'[first [{SECOND}] [[hour]]]', SECOND),
    ('[hour repr:12 padding:space]:[minute padding:space] [period case:lower]', '[hour]:[minute]'),
    ('[hour repr:12 padding:none] [period case_sensitive:false]', '[hour]'),
    ('[hour]:[minute][optional [:[second].[subsecond digits:6]]]', f'{SECOND}.[subsecond digits:6]'),
    ('[hour padding:space]:[minute padding:space]:[second padding:space].[subsecond digits:3]',
     f'{SECOND}.[subsecond digits:3]'),
]

OFFSET = '[offset_hour sign:mandatory]:[offset_minute]:[offset_second]'
OFFSETS = [(text, OFFSET) for text in [
    OFFSET,
    '[offset_hour][offset_minute][offset_second]',
    '[offset_hour padding:none] [offset_minute padding:space] [offset_second padding:none]',
    '[offset_hour sign:mandatory padding:space]h[offset_minute padding:none]:[offset_second padding:space]',
]]

UNITS = [
    ('second', ''),
    ('millisecond', '[subsecond digits:3]'),
    ('microsecond', '[subsecond digits:6]'),
    ('nanosecond', '[subsecond digits:9]'),
]
STAMPS = [(f'[unix_timestamp precision:{unit}]',) * 2 for unit, _ in UNITS]
STAMPS += [(f'{text} {shown} {OFFSET}', f'{text} {OFFSET}') for (text, _), (_, shown) in zip(STAMPS, UNITS)]

# By strftime, whose forms of what is determined are of version 3's `timefd_format` too.
STRFTIME = [
    ('%F %T %z', '%F %T %z'), ('%c', '%F %T'), ('%G-W%V-%u', '%F'), ('%Y %U %w', '%F'), ('%Y %W %a', '%F'), ('%Y-%j', '%F'),
    ('%-d. %B %Y, %l:%M %p', '%F %R'), ('%A %e %b %C %y', '%F'), ('%s', '%s'), ('%r %D %C', '%F %T'), ('%k:%M:%S', '%T'),
]


def joined(*parts):
    """A description of these parts, and what it determines."""
    return tuple(' | '.join(part[side] for part in parts) for side in (0, 1))


def descriptions():
    """The language, the description, and one that shows what it determines."""
    single = DATES + TIMES + OFFSETS + STAMPS
    pairs = [joined(*parts) for parts in itertools.product(DATES, TIMES)]
    triples = [joined(*parts) for parts in itertools.product(DATES, TIMES, OFFSETS)]
    random.Random(SEED).shuffle(triples)
    all_of_three = [('3', *both) for both in single + pairs + triples]
    strftime = [('strftime', *both) for both in STRFTIME]
    return strftime + all_of_three[:DESCRIPTIONS - len(strftime)]


def most_digits(description):
    """How many digits of a second a moment may have. A timestamp is cut towards 1970, and `subsecond` towards the past, so that
    before 1970 both show the same instant only where neither leaves a digit out."""
    if 'subsecond' in description:
        for unit, digits in [('millisecond', 3), ('microsecond', 6)]:
            if f'precision:{unit}' in description:
                return digits
    return 9


def moment(numbers, is_strftime, most):
    """A random moment of so many digits of a second at most, as `timefd_format` reads it. Strftime writes years of four digits,
    and no seconds of the offset."""
    year = numbers.choice([numbers.randint(1, 9999), numbers.randint(-9_998, 9_998), numbers.randint(1900, 2100)])
    if is_strftime:
        year = numbers.randint(1, 9999)
    month = numbers.randint(1, 12)
    # The calendar repeats itself after 400 years, and Python's begins with the year 1.
    day = numbers.randint(1, calendar.monthrange(year % 400 + 400, month)[1])
    clock = f'{numbers.randint(0, 23):02}:{numbers.randint(0, 59):02}:{numbers.randint(0, 59):02}'
    digits = min(most, numbers.choice([0, 3, 6, 9]))
    fraction = f'.{numbers.randint(0, 10 ** digits - 1):0{digits}}' if digits else ''
    offset = f'{numbers.choice("+-")}{numbers.randint(0, 23):02}:{numbers.randint(0, 59):02}'
    if not is_strftime:
        offset += f':{numbers.randint(0, 59):02}'
    # A year of other than four digits has a sign and six digits.
    shown = f'{year:04}' if 0 <= year <= 9999 else f'{year:+07}'
    return f'{shown}-{month:02}-{day:02}T{clock}{fraction}{offset}'


def run(program, lines, *words):
    """What the program writes of the lines. It has to take them all."""
    ended = subprocess.run([program, *words], input=lines, capture_output=True, check=False)
    if ended.returncode or ended.stderr:
        reported = ended.stderr.decode(errors='replace').splitlines()
        sys.exit(f'round_trip.py: {words} ended with {ended.returncode}, and wrote {len(reported)} messages: {reported[:3]}')
    return ended.stdout


def compare(what, description, lines, wanted, got):
    if wanted == got:
        return
    for line, one, other in zip(lines.splitlines(), wanted.splitlines(), got.splitlines()):
        if one != other:
            sys.exit(f'round_trip.py: {what} of {description!r}: {line} has {one}, and not {other}')
    sys.exit(f'round_trip.py: {what} of {description!r}: lines are missing')


def main():
    program = sys.argv[1]
    count = int(sys.argv[2]) if len(sys.argv) > 2 else 5_000
    numbers = random.Random(SEED)
    for language, description, determined in descriptions():
        most = most_digits(description)
        moments = ''.join(f'{moment(numbers, language == "strftime", most)}\n' for _ in range(count)).encode()
        by = ['--language', language]
        texts = run(program, moments, *by, description)
        wanted = run(program, moments, *by, determined)
        compare('what is read', description, moments, wanted, run(program, texts, *by, '--read', description, determined))
        compare('the text again', description, moments, texts, run(program, texts, *by, '--read', description, description))
    print(f'{DESCRIPTIONS} descriptions on {count} moments each: all is read back')


if __name__ == '__main__':
    main()
