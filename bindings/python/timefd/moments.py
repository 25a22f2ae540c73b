"""Dates and times written and read by descriptions."""

from __future__ import annotations

import datetime

from timefd import _timefd
from timefd.language import Language

__all__ = ["format", "read"]


def format(text: str, moment: datetime.date | datetime.time, language: Language = Language.VERSION_3) -> str:
    """What a format writes for a date, a time of day or both, which are values of the module `datetime`.

    >>> format("[year]-[month]-[day]", datetime.date(2026, 11, 23))
    '2026-11-23'
    >>> format("%H:%M", datetime.time(5, 6), Language.STRFTIME)
    '05:06'

    Raises `InvalidDescription` if the text is refused, `NothingShown` if a component needs what `moment` lacks, and
    `TypeError` if `moment` isn't a date, time or datetime. A `Format` parses its text once for many moments.
    """
    return _timefd.format(text, moment, language)


def read(
    text: str, moment: str, language: Language = Language.VERSION_3
) -> datetime.date | datetime.time | datetime.timezone:
    """What a string shows by a format: a date, a time of day or both, as values of the module `datetime`.

    >>> read("[day]/[month]/[year]", "23/11/2026")
    datetime.date(2026, 11, 23)
    >>> read("%H:%M", "05:06", Language.STRFTIME)
    datetime.time(5, 6)
    >>> read("[year]-[ordinal] [hour]:[minute][offset_hour sign:mandatory]", "2026-327 12:00+01")
    datetime.datetime(2026, 11, 23, 12, 0, tzinfo=datetime.timezone(datetime.timedelta(seconds=3600)))
    >>> read("[day]/[month]/[year]", "23/1x/2026")
    Traceback (most recent call last):
    ...
    timefd.errors.NotRead: the component `month` was expected at byte 3

    It is a `timezone` if only an offset was read. What is shorter than a microsecond is dropped. `Format` has calls that
    answer only one of these types.

    Raises `InvalidDescription` if the text is refused, `NotRead` if a part of `moment` doesn't match, `NoMoment` if what
    was read determines no moment, and `Error` if `datetime` has no such value: if nothing was read, or an offset with only a date,
    or a year outside of 1 to 9999, or an offset of 24 hours.
    """
    return _timefd.read(text, moment, language)
