//! Values of `chrono` from and to those here.

use chrono::{DateTime, Datelike, FixedOffset, NaiveDate, NaiveDateTime, NaiveTime, TimeZone};
use chrono::{Offset, Timelike};

use crate::date::Date;
use crate::moment::Moment;
use crate::time_of_day::Time;
use crate::value_error::ValueError;

impl From<NaiveDate> for Date {
    fn from(date: NaiveDate) -> Self {
        // Both fit: there are 12 months, of 31 days at most.
        Self { year: date.year(), month: date.month() as u8, day: date.day() as u8 }
    }
}

impl TryFrom<Date> for NaiveDate {
    type Error = ValueError;

    fn try_from(date: Date) -> Result<Self, ValueError> {
        let Date { year, month, day } = date.checked()?;
        let made = Self::from_ymd_opt(year, month.into(), day.into());
        made.ok_or(ValueError::Unrepresentable)
    }
}

impl From<NaiveTime> for Time {
    fn from(time: NaiveTime) -> Self {
        // Each fits: an hour has 60 minutes, a day 24 hours.
        let (hour, minute) = (time.hour() as u8, time.minute() as u8);
        Self { hour, minute, second: time.second() as u8, nanosecond: time.nanosecond() }
    }
}

impl TryFrom<Time> for NaiveTime {
    type Error = ValueError;

    fn try_from(time: Time) -> Result<Self, ValueError> {
        let Time { hour, minute, second, nanosecond } = time.checked()?;
        let made = Self::from_hms_nano_opt(hour.into(), minute.into(), second.into(), nanosecond);
        made.ok_or(ValueError::Unrepresentable)
    }
}

impl From<NaiveDate> for Moment {
    fn from(date: NaiveDate) -> Self {
        Date::from(date).into()
    }
}

impl From<NaiveTime> for Moment {
    fn from(time: NaiveTime) -> Self {
        Time::from(time).into()
    }
}

impl From<NaiveDateTime> for Moment {
    fn from(local: NaiveDateTime) -> Self {
        (Date::from(local.date()), Time::from(local.time())).into()
    }
}

impl<Zone: TimeZone> From<DateTime<Zone>> for Moment {
    fn from(instant: DateTime<Zone>) -> Self {
        let offset_seconds = Some(instant.offset().fix().local_minus_utc());
        Self { offset_seconds, ..instant.naive_local().into() }
    }
}

/// A moment with an offset is refused, as that would be lost.
impl TryFrom<Moment> for NaiveDateTime {
    type Error = ValueError;

    fn try_from(moment: Moment) -> Result<Self, ValueError> {
        let (date, time) = moment.local_parts()?;
        Ok(Self::new(date.try_into()?, time.try_into()?))
    }
}

impl TryFrom<Moment> for DateTime<FixedOffset> {
    type Error = ValueError;

    fn try_from(moment: Moment) -> Result<Self, ValueError> {
        let (date, time, seconds) = moment.all_parts()?;
        let offset = FixedOffset::east_opt(seconds).ok_or(ValueError::Unrepresentable)?;
        let local = NaiveDateTime::new(date.try_into()?, time.try_into()?);
        let instant = offset.from_local_datetime(&local).single();
        instant.ok_or(ValueError::Unrepresentable)
    }
}
