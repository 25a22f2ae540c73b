"""The errors that the extension raises, made of what the library answers. It calls each of these by its name."""

from __future__ import annotations

import datetime

from timefd.errors import Error, FaultKind, FormatRefused, InvalidDescription, NoMoment, NothingShown, NotRead, Part, Unread
from timefd.language import Language
from timefd.nodes import Name
from timefd.reason import Reason

_REASONS = {
    1: "the value has no date",
    2: "the value has no time of day",
    3: "the value has no offset from UTC",
    4: "the year has too many digits",
    5: "the instant is in no year from -999999 to 999999 of UTC",
}


def invalid_description(text: str, sentence: str, code: int, span: tuple[int, int], word: str) -> Error:
    return InvalidDescription(sentence, FaultKind(code), span, word or None, text)


def unknown_language(*numbers: int) -> ValueError:
    """Of numbers of which one is no language."""
    wrong = next(it for it in numbers if it not in list(Language))
    return ValueError(f"{wrong} is no language: take one of timefd.Language")


def no_conversion(source: int, target: int) -> Error:
    names = f"{Language(source).name} to {Language(target).name}"
    return Error(f"no conversion leads from {names}: one leads to VERSION_3, and one from VERSION_1 to VERSION_2")


def format_refused(format: str, reason: int, index: int) -> Error:
    return FormatRefused(Reason(reason), index, format)


def nothing_shown(component: int, reason: int) -> Error:
    return NothingShown(Name(component), _REASONS[reason])


def number_out_of_range(number: int) -> Error:
    """The error of a value that only a class derived from those of `datetime` has."""
    names = ("year", "month", "day", "hour", "minute", "second", "microsecond", "offset from UTC")
    return Error(f"the {names[number - 1]} of the moment is out of its range")


def broken_offset(offset: datetime.timedelta) -> Error:
    return Error(f"an offset from UTC has whole seconds, and not {offset}")


def not_read(moment: str, why: int, component: int, index: int) -> Error:
    return NotRead(Unread(why), Name(component) if component else None, index, moment)


def no_moment(part: int, is_missing: bool) -> Error:
    return NoMoment(Part(part), is_missing)


def nothing_read() -> Error:
    return Error("nothing of a date was read")


def date_with_offset() -> Error:
    return Error("a date has no offset from UTC without a time of day")


def year_out_of_range(year: int) -> Error:
    return Error(f"the year {year} was read, and datetime has those from 1 to 9999")


def offset_out_of_range(seconds: int) -> Error:
    hours = f"{seconds / 3600:+.4g}"
    return Error(f"an offset of {hours} hours was read, and datetime has those of less than 24")
