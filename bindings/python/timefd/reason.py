"""Why a part of a format has no text of version 3. `tables/write` writes them."""

from __future__ import annotations

import enum

__all__ = ["Reason"]


class Reason(enum.IntEnum):
    """Why a part of a format has no text of version 3, by its number in `timefd.h`.

    `sentence` says it, and `cure` what to do.

    >>> str(Reason.ZONE_NAME)
    'zone-name'
    """

    sentence: str
    cure: str

    def __new__(cls, number: int, sentence: str = "", cure: str = "") -> Reason:
        reason = int.__new__(cls, number)
        reason._value_ = number
        reason.sentence = sentence
        reason.cure = cure
        return reason

    BACKSLASH = (
        1,
        "a `\\` takes the meaning of the next token away",
        "Write the text between `[` and `]`.",
    )
    CAPITALS = (
        2,
        "it writes a name in capitals, or changes their case",
        "Write the name without the flag, and change its case afterwards.",
    )
    DATETIME_ONLY = (
        3,
        "Ruby's `DateTime` alone has it",
        "Write a directive that `Time` has too.",
    )
    DAY_PERIOD = (
        4,
        "it writes a period of the day, like `in the morning`",
        "Write `a`, for AM and PM.",
    )
    ERA = (
        5,
        "it writes an era, and version 3 has none",
        "Write the year alone, or the era as a literal.",
    )
    FLAG = (
        6,
        "this directive takes no such flag, and none with a width",
        "Leave the flag and the width out, or choose another directive.",
    )
    FRACTION_WIDTH = (
        7,
        "it writes a fraction of a second of more than nine digits",
        "Write at most nine digits.",
    )
    GMT_OFFSET = (
        8,
        "it writes an offset as `GMT+1`",
        "Write the offset in digits.",
    )
    HOUR_FROM_0_OR_24 = (
        9,
        "it counts hours from 0 to 11 or from 1 to 24",
        "Write the hour of 24 from 0 on, or of 12 from 1 on.",
    )
    JULIAN_DAY = (
        10,
        "it counts days from a day long ago",
        "Count the days in a program.",
    )
    LOCAL_TIME = (
        11,
        "it depends on the time zone of the process",
        "Write a directive that depends on the moment alone.",
    )
    LOCAL_WEEK = (
        12,
        "it counts weeks or weekdays as a locale does, or writes the year of such weeks",
        "Write the week of ISO 8601, or the year of the calendar.",
    )
    LOCALE = (
        13,
        "what it writes depends on the locale",
        "Write each part by a directive of its own.",
    )
    NARROW_NAME = (
        14,
        "it writes the first letter of a name",
        "Write the short name.",
    )
    OPTIONAL_PART = (
        15,
        "a part in `[` and `]` is optional",
        "Convert the part alone, and put its text into `[optional [..]]`.",
    )
    ORDINAL_SUFFIX = (
        16,
        "it writes a number like `1st`",
        "Write the number alone.",
    )
    PAD_LETTER = (
        17,
        "it pads the next letter to a width",
        "Write the next letter as often as it has digits.",
    )
    PLATFORM = (
        18,
        "platforms differ in what it writes",
        "Write a directive that all platforms have.",
    )
    QUARTER = (
        19,
        "it writes a quarter, and version 3 has none",
        "Write the month, or count the quarter in a program.",
    )
    READING_ONLY = (
        20,
        "it can be read, and not be written",
        "Write a directive for writing.",
    )
    RESERVED = (
        21,
        "the character is reserved",
        "Quote it if it is meant as text, or leave it out.",
    )
    TOO_MANY_LETTERS = (
        22,
        "no pattern repeats this letter so often",
        "Write fewer of them.",
    )
    TWO_DIGIT_YEAR = (
        36,
        "it reads two digits of a year, which leave the century open",
        "Read by a format with all digits of the year.",
    )
    TWO_LETTER_NAME = (
        23,
        "it writes a weekday in two letters",
        "Write the short name, of three letters.",
    )
    UNCLOSED_QUOTE = (
        24,
        "no quote closes this one",
        "Close it; write a literal quote twice.",
    )
    UNIT_OF_DAY = (
        25,
        "it counts milliseconds or nanoseconds from midnight on",
        "Write hour, minute, second and fraction.",
    )
    UNKNOWN_DIRECTIVE = (
        26,
        "the dialect has no such directive",
        "Write one that it has; write a literal `%` twice.",
    )
    UNKNOWN_LETTER = (
        27,
        "the letter has no meaning and isn't quoted",
        "Quote it if it is meant as text.",
    )
    UNSUPPORTED = (
        28,
        "libraries differ in what it means, or lack it",
        "Write a directive that has one meaning.",
    )
    VARIABLE_FRACTION = (
        29,
        "it writes as many digits of a fraction as it has, or none",
        "Write a fixed number of digits.",
    )
    VARIABLE_OFFSET = (
        30,
        "it writes as much of an offset as there is",
        "Write the offset with its minutes.",
    )
    VARIABLE_WIDTH = (
        31,
        "its width depends on the value",
        "Write the value with a fixed width.",
    )
    WEEK_OF_MONTH = (
        32,
        "it counts weeks or weekdays within the month",
        "Write the day of the month.",
    )
    WIDTH = (
        33,
        "no component of version 3 has this width",
        "Leave the width out, and write what it fills as a literal, like `0[day]` for `%3d`.",
    )
    Z_FOR_UTC = (
        34,
        "it writes `Z` for an offset of zero",
        "Write the offset in digits, or `Z` as a literal where each moment is one of UTC.",
    )
    ZONE_NAME = (
        35,
        "it writes the name of a time zone",
        "Write the offset, or the name as a literal.",
    )

    def __str__(self) -> str:
        """The name that `timefd_format` prints, such as `zone-name`."""
        return self.name.lower().replace("_", "-")
