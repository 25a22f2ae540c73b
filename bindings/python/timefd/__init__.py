"""Formats of dates, like `[year]-[month]-[day]` of Rust's crate `time`, versions 1, 2 and 3, or `%Y-%m-%d` of strftime.

    >>> import datetime
    >>> import timefd
    >>> day = timefd.Format("[day].[month].[year]")
    >>> day.format(datetime.date(2026, 11, 23))
    '23.11.2026'
    >>> day.read_date("23.11.2026")
    datetime.date(2026, 11, 23)
    >>> timefd.check("[year]-[mnth]")
    Traceback (most recent call last):
    ...
    timefd.errors.InvalidDescription: invalid component name `mnth` at byte index 8
    >>> timefd.parse("due [day]")[0]
    Literal(text='due ', max_bytes=4)
    >>> timefd.convert("%d.%m.%y", Language.STRFTIME, Language.VERSION_3)
    '[day].[month].[year repr:last_two]'

    Format(text, language)            keeps a description: format, read_date, read_time, read_datetime, read, nodes, warnings, max_bytes
    check(text, language)             how many bytes a description reserves, or how many items it has; or what is wrong with it
    parse(text, language)             its items: Literal, Component, Compound, Optional, First
    convert(text, source, target)     the same description in a later language
    convert_format(dialect, format)   a format of Python, Java, Go and others in version 3
    format(text, moment, language)    what Format writes; the text is parsed each time
    read(text, moment, language)      what Format reads

A language is one of `Language`, by default VERSION_3. All errors are an `Error`, which is a `ValueError`:
`InvalidDescription`, `FormatRefused`, `NothingShown`, `NotRead`, `NoMoment`. A wrong type is a `TypeError`. The calls may come from any thread.

A library whose functions are all proved does the work; this module is only tested.
"""

# This finds the extension, which the others import.
from timefd import library as library

from timefd.calls import check, convert, convert_format, parse
from timefd.dialect import ConvertedFormat, Dialect
from timefd.errors import Error, FaultKind, FormatRefused, InvalidDescription, NoMoment, NothingShown, NotRead, Part, Unread
from timefd.formats import Format
from timefd.language import Language
from timefd.moments import format as format
from timefd.moments import read
from timefd.nodes import Component, Compound, First, Literal, Name, Node, Padding, TrailingInput
from timefd.nodes import Optional as Optional
from timefd.reason import Reason as Reason
from timefd.warning import Warning as Warning

__version__ = "0.2.0"

# `from timefd import *` gives everything but `format`, `Warning` and `Optional`, which would take the place of builtins and of
# `typing.Optional`.
__all__ = [
    "Component",
    "Compound",
    "ConvertedFormat",
    "Dialect",
    "Error",
    "FaultKind",
    "First",
    "Format",
    "FormatRefused",
    "InvalidDescription",
    "Language",
    "Literal",
    "Name",
    "NoMoment",
    "Node",
    "NotRead",
    "NothingShown",
    "Padding",
    "Part",
    "Reason",
    "TrailingInput",
    "Unread",
    "check",
    "convert",
    "convert_format",
    "parse",
    "read",
]
