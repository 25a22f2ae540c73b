//! Days of the calendar.

use crate::range::{Number, RangeError};

/// A day of the Gregorian calendar. It displays as `2026-11-23`, and is parsed from such a text.
///
/// ```
/// use timefd::Date;
///
/// let day = Date::new(2026, 11, 23)?;
/// assert_eq!(day.to_string(), "2026-11-23");
/// assert_eq!("2026-11-23".parse::<Date>()?, day);
/// assert!(day < Date::new(2027, 1, 1)?);
/// # Ok::<(), Box<dyn std::error::Error>>(())
/// ```
///
/// Its fields can be set to what isn't a day: then writing it is an error.
#[derive(Debug, Clone, Copy, PartialEq, Eq, PartialOrd, Ord, Hash)]
pub struct Date {
    /// From -999,999 to 999,999.
    pub year: i32,
    /// From 1.
    pub month: u8,
    /// From 1.
    pub day: u8,
}

impl Date {
    /// The day of a year, a month from 1 to 12 and a day of that month.
    ///
    /// # Errors
    ///
    /// The first of the numbers that is out of its range.
    pub const fn new(year: i32, month: u8, day: u8) -> Result<Self, RangeError> {
        let number = if year < -999_999 || year > 999_999 {
            Number::Year
        } else if month < 1 || month > 12 {
            Number::Month
        } else if day < 1 || day > days_of(year, month) {
            Number::Day
        } else {
            return Ok(Self { year, month, day });
        };
        Err(RangeError::new(number))
    }

    /// The same, if it is a day.
    pub(crate) fn checked(self) -> Result<Self, RangeError> {
        Self::new(self.year, self.month, self.day)
    }

    /// How many days it is after 1970-01-01, negative if it is before that.
    pub(crate) fn unix_days(self) -> i64 {
        // Years begin on 1 March here, so that a leap day is the last one.
        let month = (i64::from(self.month) + 9) % 12;
        let year = i64::from(self.year) - month / 10;
        let leap_days = year.div_euclid(4) - year.div_euclid(100) + year.div_euclid(400);
        let day_of_year = (153 * month + 2) / 5 + i64::from(self.day) - 1;
        365 * year + leap_days + day_of_year - DAYS_BEFORE_1970
    }

    /// The day that is so many days after 1970-01-01. `None` if its year is out of its range.
    #[cfg(any(test, feature = "std"))]
    pub(crate) fn of_unix_days(days: i64) -> Option<Self> {
        let days = days.checked_add(DAYS_BEFORE_1970)?;
        let (era, day) = (days.div_euclid(DAYS_OF_ERA), days.rem_euclid(DAYS_OF_ERA));
        let year = (day - day / 1_460 + day / 36_524 - day / 146_096) / 365;
        let day_of_year = day - (365 * year + year / 4 - year / 100);
        let month = (5 * day_of_year + 2) / 153;
        let day = day_of_year - (153 * month + 2) / 5 + 1;
        let (month, year) = ((month + 2) % 12 + 1, 400 * era + year + month / 10);
        // Both fit, as a month has at most 31 days.
        Self::new(i32::try_from(year).ok()?, month as u8, day as u8).ok()
    }
}

/// The days from 1 March of the year 0 to 1970-01-01.
const DAYS_BEFORE_1970: i64 = 719_468;

/// The days of 400 years.
#[cfg(any(test, feature = "std"))]
const DAYS_OF_ERA: i64 = 146_097;

/// How many days a month from 1 to 12 has.
const fn days_of(year: i32, month: u8) -> u8 {
    match month {
        2 if year % 4 == 0 && (year % 100 != 0 || year % 400 == 0) => 29,
        2 => 28,
        4 | 6 | 9 | 11 => 30,
        _ => 31,
    }
}

#[cfg(test)]
#[path = "date_tests.rs"]
mod tests;
