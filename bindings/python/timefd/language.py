"""The languages of texts."""

import enum

__all__ = ["Language"]


class Language(enum.IntEnum):
    """A version of the format descriptions of Rust's crate `time`, or the conversion specifications of C's `strftime`."""

    VERSION_1 = 1
    VERSION_2 = 2
    VERSION_3 = 3
    STRFTIME = 4
