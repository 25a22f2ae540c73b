//! The numbers of a moment, and what is said of one that is out of its range.

use core::error::Error;
use core::fmt;

/// A number of a moment.
#[derive(Debug, Clone, Copy, PartialEq, Eq, Hash)]
#[non_exhaustive]
pub enum Number {
    /// The year of the date.
    Year,
    /// Its month.
    Month,
    /// Its day.
    Day,
    /// The hour of the time.
    Hour,
    /// Its minute.
    Minute,
    /// Its second.
    Second,
    /// Its nanosecond.
    Nanosecond,
    /// The offset from UTC.
    Offset,
}

impl Number {
    /// The one that the header has this number for.
    pub(crate) fn from_number(number: u32) -> Option<Self> {
        Some(match number {
            1 => Self::Year,
            2 => Self::Month,
            3 => Self::Day,
            4 => Self::Hour,
            5 => Self::Minute,
            6 => Self::Second,
            7 => Self::Nanosecond,
            8 => Self::Offset,
            _ => return None,
        })
    }

    /// Its range in words.
    pub(crate) fn words(self) -> &'static str {
        match self {
            Self::Year => "year must be in the range -999999..=999999",
            Self::Month => "month must be in the range 1..=12",
            Self::Day => "the month has no such day",
            Self::Hour => "hour must be in the range 0..=23",
            Self::Minute => "minute must be in the range 0..=59",
            Self::Second => "second must be in the range 0..=59",
            Self::Nanosecond => "nanosecond must be in the range 0..=999999999",
            Self::Offset => "offset must be less than 26 hours from UTC",
        }
    }
}

/// A number of a date or a time of day is out of its range.
///
/// ```
/// use timefd::{Date, Number};
///
/// let error = Date::new(2026, 2, 29).unwrap_err();
/// assert_eq!(error.number(), Number::Day);
/// assert_eq!(error.to_string(), "the month has no such day");
/// ```
#[derive(Debug, Clone, Copy, PartialEq, Eq, Hash)]
pub struct RangeError {
    number: Number,
}

impl RangeError {
    pub(crate) const fn new(number: Number) -> Self {
        Self { number }
    }

    /// Which number it is: the first such one.
    #[must_use]
    pub fn number(self) -> Number {
        self.number
    }
}

impl fmt::Display for RangeError {
    fn fmt(&self, f: &mut fmt::Formatter<'_>) -> fmt::Result {
        f.write_str(self.number.words())
    }
}

impl Error for RangeError {}
