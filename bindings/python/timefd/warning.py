"""What is suspect in a description that is accepted."""

from __future__ import annotations

import enum

__all__ = ["Warning"]


class Warning(enum.IntEnum):
    """What is suspect in an accepted text, by its number in `timefd.h`, which says what each means.

    >>> str(Warning.NO_COMPONENT)
    'no-component'
    """

    NO_COMPONENT = 1
    OTHER_LANGUAGE = 2
    MONTH_FOR_MINUTE = 3
    MINUTE_FOR_MONTH = 4
    HOUR_WITHOUT_PERIOD = 5
    PERIOD_WITH_24_HOURS = 6
    SUBSECOND_WITHOUT_SECOND = 7
    WEEK_WITH_CALENDAR_YEAR = 8
    DATE_WITH_ISO_YEAR = 9
    SHOWN_TWICE = 10
    UNDETERMINED_DATE = 11
    UNSETTLED_WIDTH = 12
    UNSETTLED_YEAR = 13
    DEPRECATED_COMPONENT = 14

    def __str__(self) -> str:
        """The name that the linter writes, like `no-component`."""
        return self.name.lower().replace("_", "-")
