"""A description that is kept."""

from __future__ import annotations

import datetime
import typing

from timefd import _timefd
from timefd.errors import Error
from timefd.language import Language
from timefd.nodes import Compound, Node, decoded
from timefd.warning import Warning

__all__ = ["Format"]

_Kind = typing.TypeVar("_Kind", bound="datetime.date | datetime.time")
_CALLED = {
    datetime.date: "a date",
    datetime.time: "a time of day",
    datetime.datetime: "a date with a time of day",
    datetime.timezone: "an offset from UTC",
}


class Format:
    """A description that is parsed once, and then writes and reads dates.

    >>> day = Format("[day].[month].[year]")
    >>> day.format(datetime.date(2026, 11, 23))
    '23.11.2026'
    >>> day.read_date("23.11.2026")
    datetime.date(2026, 11, 23)
    >>> Format("%H:%M", Language.STRFTIME).read_time("05:06")
    datetime.time(5, 6)
    >>> Format("[mnth]")
    Traceback (most recent call last):
    ...
    timefd.errors.InvalidDescription: invalid component name `mnth` at byte index 1

    It never changes. Two are equal if their texts and languages are.
    """

    __slots__ = ("_language", "_max_bytes", "_prepared", "_text")

    def __init__(self, text: str, language: Language = Language.VERSION_3) -> None:
        """Parses the text. Raises `InvalidDescription` if it is refused."""
        self._prepared, self._max_bytes = _timefd.prepare(text, language)
        self._text, self._language = text, Language(language)

    @property
    def text(self) -> str:
        """The text of the description."""
        return self._text

    @property
    def language(self) -> Language:
        """The language of the text."""
        return self._language

    @property
    def max_bytes(self) -> int:
        """How many bytes of UTF-8 the longest text has that `format` can write."""
        return self._max_bytes

    @property
    def nodes(self) -> tuple[Node, ...]:
        """The items of the text in turn, as `parse` has them."""
        found = tuple(decoded(*_timefd.nodes(self._prepared)))
        # Of several parts, a text of version 3 is one compound of these.
        whole = found[0] if self._language is Language.VERSION_3 else None
        return whole.members if isinstance(whole, Compound) else found

    @property
    def warnings(self) -> tuple[Warning, ...]:
        """What is suspect in the text, in the order of the numbers. For most texts that is nothing.

        >>> [str(it) for it in Format("%Y-%m-%d").warnings]
        ['no-component', 'other-language']
        """
        return tuple(map(Warning, _timefd.warnings(self._text, self._language)))

    def format(self, moment: datetime.date | datetime.time) -> str:
        """What the description writes for a date, time or datetime.

        Raises `NothingShown` if a component needs what `moment` lacks.
        """
        return _timefd.format_prepared(self._prepared, moment)

    def read(self, moment: str) -> datetime.date | datetime.time | datetime.timezone:
        """The date, time, datetime or timezone that a string shows. Raises what `timefd.read` does."""
        return _timefd.read_prepared(self._prepared, moment)

    def read_date(self, moment: str) -> datetime.date:
        """The date that a string shows. Raises what `read` does, and `Error` if the string shows more or something else."""
        return self._read(moment, datetime.date)

    def read_time(self, moment: str) -> datetime.time:
        """The time of day that a string shows, like `read_date`. It has a `tzinfo` if the string shows an offset."""
        return self._read(moment, datetime.time)

    def read_datetime(self, moment: str) -> datetime.datetime:
        """The date and time of day that a string shows, like `read_date`. It has a `tzinfo` if the string shows an offset."""
        return self._read(moment, datetime.datetime)

    def _read(self, moment: str, kind: type[_Kind]) -> _Kind:
        value = self.read(moment)
        if type(value) is kind:
            return value
        raise Error(f"`{moment}` shows {_CALLED[type(value)]}, and not {_CALLED[kind]}")

    def __repr__(self) -> str:
        language = "" if self._language is Language.VERSION_3 else f", Language.{self._language.name}"
        return f"Format({self._text!r}{language})"

    def __eq__(self, other: object) -> bool:
        if not isinstance(other, Format):
            return NotImplemented
        return (self._text, self._language) == (other._text, other._language)

    def __hash__(self) -> int:
        return hash((self._text, self._language))

    def __reduce__(self) -> tuple[type[Format], tuple[str, Language]]:
        return type(self), (self._text, self._language)
