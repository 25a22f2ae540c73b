"""Languages and libraries whose formats are converted."""

from __future__ import annotations

import enum
import typing

__all__ = ["ConvertedFormat", "Dialect"]


class Dialect(enum.Enum):
    """A language or a library whose formats are converted to version 3, by its name. `number` is that of `timefd.h`.

    >>> Dialect("java")
    <Dialect.JAVA: 'java'>
    """

    number: int

    def __new__(cls, name: typing.Union[str, Dialect], number: int = 0) -> Dialect:
        dialect = object.__new__(cls)
        dialect._value_ = name
        dialect.number = number
        return dialect

    PYTHON = "python", 101
    C = "c", 102
    GNU = "gnu", 103
    CHRONO = "chrono", 104
    JIFF = "jiff", 105
    RUBY = "ruby", 106
    JAVA = "java", 107
    GO = "go", 108
    MOMENT = "moment", 109

    @classmethod
    def _missing_(cls, value: object) -> typing.NoReturn:
        if not isinstance(value, str):
            raise TypeError(f"a dialect has to be one of timefd.Dialect, or its name, not {type(value)!r}")
        raise ValueError(f"{value!r} is no dialect: take one of {', '.join(it.value for it in cls)}")


class ConvertedFormat(typing.NamedTuple):
    """A format as a text of version 3, and for which moments it writes the same.

    They are those from the year `first_year` on, up to the year 9999; if `whole_minutes` is true, only those whose offset has no
    seconds.
    """

    text: str
    first_year: int
    whole_minutes: bool
