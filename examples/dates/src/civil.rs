//! Dates with a time of day.

use timefd::{Date, Moment, Time};

use crate::calendar;

/// A date of the Gregorian calendar, which is continued to all years, with a time of day and an
/// offset from UTC.
#[derive(Debug, Clone, Copy, PartialEq, Eq)]
pub struct Civil {
    /// From -999,999 to 999,999; the year before 1 is 0.
    pub year: i32,
    /// From 1 to 12.
    pub month: u8,
    /// From 1.
    pub day: u8,
    /// From 0 to 23.
    pub hour: u8,
    /// From 0 to 59.
    pub minute: u8,
    /// From 0 to 59.
    pub second: u8,
    /// From 0 to 999,999,999.
    pub nanosecond: u32,
    /// How far the clock is ahead of UTC, in seconds: less than 26 hours either way.
    pub offset: i32,
}

impl Civil {
    /// Whether there is such a date and time.
    pub fn exists(&self) -> bool {
        self.year.unsigned_abs() <= 999_999
            && (1..=12).contains(&self.month)
            && (1..=calendar::days_in_month(self.year, self.month)).contains(&self.day)
            && self.hour <= 23
            && self.minute <= 59
            && self.second <= 59
            && self.nanosecond <= 999_999_999
            && self.offset.unsigned_abs() < 26 * 3600
    }

    /// The day of the year, from 1.
    fn ordinal(&self) -> u16 {
        let months = 1..self.month;
        let before: u16 =
            months.map(|month| u16::from(calendar::days_in_month(self.year, month))).sum();
        before + u16::from(self.day)
    }

    /// How many days the day is after 1 January of the year 1, which was a Monday.
    fn day_number(&self) -> i64 {
        calendar::days_before_year(self.year) + i64::from(self.ordinal()) - 1
    }

    /// How many days the day is after a Monday, from 0 to 6.
    pub(crate) fn days_from_monday(&self) -> u8 {
        self.day_number().rem_euclid(7) as u8
    }
}

impl From<Civil> for Moment {
    fn from(date: Civil) -> Self {
        let Civil { year, month, day, hour, minute, second, nanosecond, offset } = date;
        Self {
            date: Some(Date { year, month, day }),
            time: Some(Time { hour, minute, second, nanosecond }),
            offset_seconds: Some(offset),
        }
    }
}
