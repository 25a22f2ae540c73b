//! Values of `jiff` from and to those here.
//!
//! ```
//! use timefd::{Language, Moment, Version};
//!
//! let day = jiff::civil::date(2026, 11, 23);
//! assert_eq!(timefd::format(Version::Three, "[day].[month].", &Moment::from(day))?, "23.11.");
//!
//! let read = timefd::read(Language::Strftime, "%F %T %z", "2026-11-23 05:06:07 +0100")?;
//! assert_eq!(jiff::Timestamp::try_from(read)?.as_second(), 1_795_406_767);
//! # Ok::<(), Box<dyn std::error::Error>>(())
//! ```

use jiff::civil::DateTime;
use jiff::tz::Offset;
use jiff::{Timestamp, Zoned, civil};

use crate::date::Date;
use crate::moment::Moment;
use crate::time_of_day::Time;
use crate::value_error::{ValueError, unrepresentable};

impl From<civil::Date> for Date {
    fn from(date: civil::Date) -> Self {
        // Both are from 1 to 31 at most.
        let (month, day) = (date.month().unsigned_abs(), date.day().unsigned_abs());
        Self { year: date.year().into(), month, day }
    }
}

impl TryFrom<Date> for civil::Date {
    type Error = ValueError;

    fn try_from(date: Date) -> Result<Self, ValueError> {
        let Date { year, month, day } = date.checked()?;
        let year = i16::try_from(year).map_err(unrepresentable)?;
        // Both are from 1 to 31 at most.
        Self::new(year, month as i8, day as i8).map_err(unrepresentable)
    }
}

impl From<civil::Time> for Time {
    fn from(time: civil::Time) -> Self {
        // None of them is negative.
        Self {
            hour: time.hour().unsigned_abs(),
            minute: time.minute().unsigned_abs(),
            second: time.second().unsigned_abs(),
            nanosecond: time.subsec_nanosecond().unsigned_abs(),
        }
    }
}

impl TryFrom<Time> for civil::Time {
    type Error = ValueError;

    fn try_from(time: Time) -> Result<Self, ValueError> {
        let Time { hour, minute, second, nanosecond } = time.checked()?;
        // Each fits, as it is in its range.
        let made = Self::new(hour as i8, minute as i8, second as i8, nanosecond as i32);
        made.map_err(unrepresentable)
    }
}

impl From<civil::Date> for Moment {
    fn from(date: civil::Date) -> Self {
        Date::from(date).into()
    }
}

impl From<civil::Time> for Moment {
    fn from(time: civil::Time) -> Self {
        Time::from(time).into()
    }
}

impl From<DateTime> for Moment {
    fn from(local: DateTime) -> Self {
        (Date::from(local.date()), Time::from(local.time())).into()
    }
}

/// In UTC.
impl From<Timestamp> for Moment {
    fn from(instant: Timestamp) -> Self {
        Self { offset_seconds: Some(0), ..Offset::UTC.to_datetime(instant).into() }
    }
}

impl From<&Zoned> for Moment {
    fn from(instant: &Zoned) -> Self {
        Self { offset_seconds: Some(instant.offset().seconds()), ..instant.datetime().into() }
    }
}

/// A moment with an offset is refused, as that would be lost.
impl TryFrom<Moment> for DateTime {
    type Error = ValueError;

    fn try_from(moment: Moment) -> Result<Self, ValueError> {
        let (date, time) = moment.local_parts()?;
        Ok(Self::from_parts(date.try_into()?, time.try_into()?))
    }
}

impl TryFrom<Moment> for Timestamp {
    type Error = ValueError;

    fn try_from(moment: Moment) -> Result<Self, ValueError> {
        let (local, offset) = local_and_offset(moment)?;
        offset.to_timestamp(local).map_err(unrepresentable)
    }
}

/// In a time zone that has this offset at all times.
impl TryFrom<Moment> for Zoned {
    type Error = ValueError;

    fn try_from(moment: Moment) -> Result<Self, ValueError> {
        let (_, offset) = local_and_offset(moment)?;
        Ok(Timestamp::try_from(moment)?.to_zoned(offset.to_time_zone()))
    }
}

fn local_and_offset(moment: Moment) -> Result<(DateTime, Offset), ValueError> {
    let (date, time, seconds) = moment.all_parts()?;
    let offset = Offset::from_seconds(seconds).map_err(unrepresentable)?;
    Ok((DateTime::from_parts(date.try_into()?, time.try_into()?), offset))
}
