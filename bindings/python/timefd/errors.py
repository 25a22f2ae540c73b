"""What is wrong with a text, with a moment that it is to write, or with a date that it is to read."""

from __future__ import annotations

import enum
import typing

from timefd.nodes import Name
from timefd.reason import Reason

__all__ = ["Error", "FaultKind", "FormatRefused", "InvalidDescription", "NoMoment", "NotRead", "NothingShown", "Part", "Unread"]


class FaultKind(enum.IntEnum):
    """Which fault a text has, by its number in `timefd.h`, which says what each means."""

    UNCLOSED_BRACKET = 1
    UNKNOWN_NAME = 2
    INVALID_MODIFIER = 3
    MISSING_NAME = 4
    MISSING_MODIFIER = 5
    INVALID_ESCAPE = 6
    UNESCAPED_BRACKET = 7
    MISSING_SPACE = 8
    MISSING_DESCRIPTION = 9
    MISSING_ALTERNATIVE = 10
    NESTED_TOO_DEEP = 11
    SEVERAL_DESCRIPTIONS = 12
    OPTIONAL_ITEM = 13
    FIRST_ITEM = 14
    UNSUPPORTED_FLAG = 15
    UNSUPPORTED_LETTER = 16
    NESTED_IN_COMPONENT = 17
    DUPLICATE_MODIFIER = 18
    REFUSED_MODIFIER = 19

    def __str__(self) -> str:
        """The name that the linter writes, like `unclosed-bracket`."""
        return self.name.lower().replace("_", "-")


class Error(ValueError):
    """The class of all errors of this package: a text isn't a description, or a value can't be written or read by one."""


def _characters(text: str, index: int) -> int:
    """How many characters of a text are before a byte of its UTF-8."""
    return len(text.encode()[:index].decode())


class InvalidDescription(Error):
    """A text isn't a description: `str` is the sentence of its fault, `kind` which fault it is, and `text` the text.

    `span` are the bytes at fault, by their indices in UTF-8, and `index` is the first of them. `character_span` and
    `character_index` are the same in characters: `text[slice(*error.character_span)]` is what is at fault. `nearest` is the
    nearest of the words that are allowed there, or None if none is near.
    """

    def __init__(
        self, sentence: str, kind: FaultKind, span: tuple[int, int], nearest: typing.Optional[str], text: str
    ) -> None:
        super().__init__(sentence, kind, span, nearest, text)
        self.kind = kind
        self.index = span[0]
        self.span = span
        self.nearest = nearest
        self.text = text

    @property
    def character_index(self) -> int:
        """How many characters are before what is at fault."""
        return _characters(self.text, self.index)

    @property
    def character_span(self) -> tuple[int, int]:
        """The characters at fault: the index of the first, and that after the last."""
        return self.character_index, _characters(self.text, self.span[1])

    def __str__(self) -> str:
        return str(self.args[0])


class FormatRefused(Error):
    """A part of a format of another language has no text of version 3: `reason` says why, and `str` what to do.

    `index` is where the part begins, in bytes of UTF-8, and `character_index` in characters of `format`.
    """

    def __init__(self, reason: Reason, index: int, format: str) -> None:
        super().__init__(reason, index, format)
        self.reason = reason
        self.index = index
        self.format = format

    @property
    def character_index(self) -> int:
        """How many characters of the format are before the part."""
        return _characters(self.format, self.index)

    def __str__(self) -> str:
        return f"at byte {self.index} of the format: {self.reason.sentence}. {self.reason.cure}"


class NothingShown(Error):
    """A component shows nothing of the moment: `component` is the first one, and `str` says why."""

    def __init__(self, component: Name, reason: str) -> None:
        super().__init__(component, reason)
        self.component = component

    def __str__(self) -> str:
        return f"the component `{self.component.in_brackets}` shows nothing: {self.args[1]}"


class Unread(enum.IntEnum):
    """Why a part of a date doesn't match, by its number in `timefd.h`, which says what each means."""

    READS_NOTHING = 1
    READS_ANOTHER_VALUE = 2
    ANOTHER_TEXT = 3
    TEXT_FOLLOWS = 4


class Part(enum.IntEnum):
    """What can be read of a moment, by its number in `timefd.h`. `words` says it.

    >>> Part.YEAR_LAST_TWO.words
    'last two digits of the year'
    """

    words: str

    def __new__(cls, number: int, words: str = "") -> Part:
        part = int.__new__(cls, number)
        part._value_ = number
        part.words = words
        return part

    DAY = 1, "day"
    MONTH = 2, "month"
    ORDINAL = 3, "day of the year"
    WEEKDAY = 4, "weekday"
    ISO_WEEK = 5, "ISO week"
    SUNDAY_WEEK = 6, "week from Sunday"
    MONDAY_WEEK = 7, "week from Monday"
    YEAR_LAST_TWO = 8, "last two digits of the year"
    CENTURY = 9, "century"
    YEAR = 10, "year"
    ISO_YEAR_LAST_TWO = 11, "last two digits of the ISO year"
    ISO_CENTURY = 12, "century of the ISO year"
    ISO_YEAR = 13, "ISO year"
    HOUR = 14, "hour"
    HOUR_12 = 15, "hour of twelve"
    PERIOD = 16, "period"
    MINUTE = 17, "minute"
    SECOND = 18, "second"
    SUBSECOND = 19, "fraction of a second"
    OFFSET_HOUR = 20, "hour of the offset"
    OFFSET_MINUTE = 21, "minute of the offset"
    OFFSET_SECOND = 22, "second of the offset"
    UNIX_SECOND = 23, "Unix timestamp in seconds"
    UNIX_MILLISECOND = 24, "Unix timestamp in milliseconds"
    UNIX_MICROSECOND = 25, "Unix timestamp in microseconds"
    UNIX_NANOSECOND = 26, "Unix timestamp in nanoseconds"


class NotRead(Error):
    """A part of a date doesn't match: `why` says in which way, `str` is a sentence on it, and `moment` is what was to be read.

    `index` is where the first such part begins, in bytes of UTF-8, and `character_index` in characters. `component` is the one
    that doesn't match, or None if it is a literal or the end.
    """

    def __init__(self, why: Unread, component: typing.Optional[Name], index: int, moment: str) -> None:
        super().__init__(why, component, index, moment)
        self.why = why
        self.component = component
        self.index = index
        self.moment = moment

    @property
    def character_index(self) -> int:
        """How many characters of the moment are before the part."""
        return _characters(self.moment, self.index)

    def __str__(self) -> str:
        name = "" if self.component is None else f"the component `{self.component.in_brackets}`"
        words = {
            Unread.READS_NOTHING: f"{name} was expected",
            Unread.READS_ANOTHER_VALUE: f"{name} has a different value",
            Unread.ANOTHER_TEXT: "another text was expected",
            Unread.TEXT_FOLLOWS: "nothing may follow",
        }
        return f"{words[self.why]} at byte {self.index}"


class NoMoment(Error):
    """What was read makes no moment: `part` is missing if `is_missing` is true, and otherwise contradicts others."""

    def __init__(self, part: Part, is_missing: bool) -> None:
        super().__init__(part, is_missing)
        self.part = part
        self.is_missing = is_missing

    def __str__(self) -> str:
        words = "was not read" if self.is_missing else "disagrees with what else was read"
        return f"the {self.part.words} {words}"
