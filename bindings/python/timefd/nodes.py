"""The parts of a description."""

from __future__ import annotations

import enum
import typing
from dataclasses import dataclass

__all__ = ["Component", "Compound", "First", "Literal", "Name", "Node", "Optional", "Padding", "TrailingInput"]


class Name(enum.IntEnum):
    """Which component, and `in_brackets`, the name that its bracket begins with: `hour` of `HOUR_24`.

    Those that `time` calls deprecated come as what they stand for.
    """

    in_brackets: str

    def __new__(cls, number: int, in_brackets: str = "") -> Name:
        name = int.__new__(cls, number)
        name._value_ = number
        name.in_brackets = in_brackets
        return name

    DAY = 1, "day"
    MONTH_SHORT = 2, "month"
    MONTH_LONG = 3, "month"
    MONTH_NUMERICAL = 4, "month"
    ORDINAL = 5, "ordinal"
    WEEKDAY_SHORT = 6, "weekday"
    WEEKDAY_LONG = 7, "weekday"
    WEEKDAY_SUNDAY = 8, "weekday"
    WEEKDAY_MONDAY = 9, "weekday"
    WEEK_NUMBER_ISO = 10, "week_number"
    WEEK_NUMBER_SUNDAY = 11, "week_number"
    WEEK_NUMBER_MONDAY = 12, "week_number"
    CALENDAR_YEAR_FULL_EXTENDED_RANGE = 13, "year"
    CALENDAR_YEAR_FULL_STANDARD_RANGE = 14, "year"
    CALENDAR_YEAR_CENTURY_EXTENDED_RANGE = 15, "year"
    CALENDAR_YEAR_CENTURY_STANDARD_RANGE = 16, "year"
    ISO_YEAR_FULL_EXTENDED_RANGE = 17, "year"
    ISO_YEAR_FULL_STANDARD_RANGE = 18, "year"
    ISO_YEAR_CENTURY_EXTENDED_RANGE = 19, "year"
    ISO_YEAR_CENTURY_STANDARD_RANGE = 20, "year"
    CALENDAR_YEAR_LAST_TWO = 21, "year"
    ISO_YEAR_LAST_TWO = 22, "year"
    HOUR_12 = 23, "hour"
    HOUR_24 = 24, "hour"
    MINUTE = 25, "minute"
    PERIOD = 26, "period"
    SECOND = 27, "second"
    SUBSECOND = 28, "subsecond"
    OFFSET_HOUR = 29, "offset_hour"
    OFFSET_MINUTE = 30, "offset_minute"
    OFFSET_SECOND = 31, "offset_second"
    IGNORE = 32, "ignore"
    UNIX_TIMESTAMP_SECOND = 33, "unix_timestamp"
    UNIX_TIMESTAMP_MILLISECOND = 34, "unix_timestamp"
    UNIX_TIMESTAMP_MICROSECOND = 35, "unix_timestamp"
    UNIX_TIMESTAMP_NANOSECOND = 36, "unix_timestamp"
    END = 37, "end"


class Padding(enum.IntEnum):
    """How a number is filled on the left."""

    SPACE = 1
    ZERO = 2
    NONE = 3


class TrailingInput(enum.IntEnum):
    """What becomes of input after the end."""

    PROHIBIT = 1
    DISCARD = 2


@dataclass(frozen=True)
class Literal:
    """Text that is written as it is."""

    text: str
    max_bytes: int


@dataclass(frozen=True)
class Component:
    """A part of a date or time, with its modifiers; each is `None` if the component doesn't have it.

    `digits` is from 1 to 9, or 10 for one or more; `ignored` is how many bytes a parser skips.
    """

    name: Name
    max_bytes: int
    padding: typing.Optional[Padding] = None
    sign_is_mandatory: typing.Optional[bool] = None
    case_sensitive: typing.Optional[bool] = None
    one_indexed: typing.Optional[bool] = None
    is_uppercase: typing.Optional[bool] = None
    digits: typing.Optional[int] = None
    trailing_input: typing.Optional[TrailingInput] = None
    ignored: typing.Optional[int] = None


@dataclass(frozen=True)
class Compound:
    """Nodes in turn."""

    members: tuple[Node, ...]
    max_bytes: int


@dataclass(frozen=True)
class Optional:
    """A node that a parser may skip; `format` says whether a formatter writes it."""

    member: Node
    format: bool
    max_bytes: int


@dataclass(frozen=True)
class First:
    """Alternatives: a parser takes the first that fits, a formatter the first of all."""

    members: tuple[Node, ...]
    max_bytes: int


Node = typing.Union[Literal, Component, Compound, Optional, First]


class _Kind(enum.IntEnum):
    """What a node is, by its number in `timefd.h`."""

    LITERAL = 1
    COMPONENT = 2
    COMPOUND = 3
    OPTIONAL = 4
    FIRST = 5


@dataclass(frozen=True)
class _Row:
    """A node as the numbers of `timefd_node`, which `timefd.h` explains."""

    what: int
    component: int
    padding: int
    sign_is_mandatory: int
    case_sensitive: int
    one_indexed: int
    is_uppercase: int
    digits: int
    trailing_input: int
    format: int
    ignored: int
    bytes: int
    start: int
    count: int


def _truth(number: int) -> typing.Optional[bool]:
    """Of the numbers for no and yes; 0 is said of neither."""
    return None if number == 0 else number == 2


def _component(row: _Row) -> Component:
    return Component(
        name=Name(row.component),
        max_bytes=row.bytes,
        padding=Padding(row.padding) if row.padding else None,
        sign_is_mandatory=_truth(row.sign_is_mandatory),
        case_sensitive=_truth(row.case_sensitive),
        one_indexed=_truth(row.one_indexed),
        is_uppercase=_truth(row.is_uppercase),
        digits=row.digits or None,
        trailing_input=TrailingInput(row.trailing_input) if row.trailing_input else None,
        ignored=row.ignored or None,
    )


def _of_members(row: _Row, members: tuple[Node, ...]) -> Node:
    """The node of other nodes."""
    kind = _Kind(row.what)
    if kind is _Kind.OPTIONAL:
        return Optional(members[0], row.format == 2, row.bytes)
    return First(members, row.bytes) if kind is _Kind.FIRST else Compound(members, row.bytes)


def decoded(rows: typing.Iterable[tuple[int, ...]], literals: bytes) -> list[Node]:
    """The nodes that aren't members of another, in turn. Each row comes after those of its members."""
    nodes: list[Node] = []
    for numbers in rows:
        row = _Row(*numbers)
        if row.what == _Kind.LITERAL:
            text = literals[row.start : row.start + row.count].decode()
            nodes.append(Literal(text, row.bytes))
        elif row.what == _Kind.COMPONENT:
            nodes.append(_component(row))
        else:
            begin = len(nodes) - row.count
            members = tuple(nodes[begin:])
            del nodes[begin:]
            nodes.append(_of_members(row, members))
    return nodes
