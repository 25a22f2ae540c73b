"""The calls on texts."""

from __future__ import annotations

import typing

from timefd import _timefd
from timefd.dialect import ConvertedFormat, Dialect
from timefd.formats import Format
from timefd.language import Language
from timefd.nodes import Node

__all__ = ["check", "convert", "convert_format", "parse"]


def check(text: str, language: Language = Language.VERSION_3) -> int:
    """How many bytes a text of version 3 reserves, or how many items one of another language has.

    >>> check("%F", Language.STRFTIME)
    1

    Raises `InvalidDescription` if the text is refused.
    """
    return _timefd.check(text, language)


def parse(text: str, language: Language = Language.VERSION_3) -> tuple[Node, ...]:
    """The items of a text in turn: what it is made of.

    >>> parse("%d", Language.STRFTIME)
    (Component(name=<Name.DAY: 1>, max_bytes=2, padding=<Padding.ZERO: 2>, sign_is_mandatory=None, \
case_sensitive=None, one_indexed=None, is_uppercase=None, digits=None, trailing_input=None, ignored=None),)

    Raises `InvalidDescription` if the text is refused.
    """
    return Format(text, language).nodes


def convert(text: str, source: Language, target: Language) -> str:
    """The text in a later version with the same items; from version 3 to version 3 it is the normal form.

    >>> convert("[YEAR]]", Language.VERSION_2, Language.VERSION_3)
    '[year range:extended]\\\\]'
    >>> convert("%F", Language.STRFTIME, Language.VERSION_3)
    '[year range:extended]-[month]-[day]'

    Raises `InvalidDescription` if the text is refused, and `Error` if there is no conversion between the languages. There is one
    from each language to version 3, and from version 1 to version 2.
    """
    return _timefd.convert(text, source, target)


def convert_format(dialect: typing.Union[Dialect, str], format: str) -> ConvertedFormat:
    """The text of version 3 that writes the same as a format of another language, and for which moments it does so.

    >>> convert_format("java", "dd.MM.yyyy")
    ConvertedFormat(text='[day].[month].[year]', first_year=1, whole_minutes=False)

    Raises `FormatRefused` with the first part of the format that has no text of version 3, and `ValueError` if there is no such
    dialect.
    """
    return ConvertedFormat(*_timefd.convert_format(format, Dialect(dialect).number))
