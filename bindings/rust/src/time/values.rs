//! Values of `time` from and to those here.

use time::{Month, OffsetDateTime, PrimitiveDateTime, UtcOffset};

use crate::date::Date;
use crate::moment::Moment;
use crate::time_of_day::Time;
use crate::value_error::{ValueError, unrepresentable};

impl From<time::Date> for Date {
    fn from(date: time::Date) -> Self {
        Self { year: date.year(), month: date.month().into(), day: date.day() }
    }
}

impl TryFrom<Date> for time::Date {
    type Error = ValueError;

    fn try_from(date: Date) -> Result<Self, ValueError> {
        let Date { year, month, day } = date.checked()?;
        let month = Month::try_from(month).map_err(unrepresentable)?;
        Self::from_calendar_date(year, month, day).map_err(unrepresentable)
    }
}

impl From<time::Time> for Time {
    fn from(time: time::Time) -> Self {
        let (hour, minute, second, nanosecond) = time.as_hms_nano();
        Self { hour, minute, second, nanosecond }
    }
}

impl TryFrom<Time> for time::Time {
    type Error = ValueError;

    fn try_from(time: Time) -> Result<Self, ValueError> {
        let Time { hour, minute, second, nanosecond } = time.checked()?;
        Self::from_hms_nano(hour, minute, second, nanosecond).map_err(unrepresentable)
    }
}

impl From<time::Date> for Moment {
    fn from(date: time::Date) -> Self {
        Date::from(date).into()
    }
}

impl From<time::Time> for Moment {
    fn from(time: time::Time) -> Self {
        Time::from(time).into()
    }
}

impl From<PrimitiveDateTime> for Moment {
    fn from(local: PrimitiveDateTime) -> Self {
        (Date::from(local.date()), Time::from(local.time())).into()
    }
}

impl From<OffsetDateTime> for Moment {
    fn from(instant: OffsetDateTime) -> Self {
        let offset_seconds = Some(instant.offset().whole_seconds());
        let (date, time) = (instant.date(), instant.time());
        Self { offset_seconds, ..PrimitiveDateTime::new(date, time).into() }
    }
}

/// A moment with an offset is refused, as that would be lost.
impl TryFrom<Moment> for PrimitiveDateTime {
    type Error = ValueError;

    fn try_from(moment: Moment) -> Result<Self, ValueError> {
        let (date, time) = moment.local_parts()?;
        Ok(Self::new(date.try_into()?, time.try_into()?))
    }
}

impl TryFrom<Moment> for OffsetDateTime {
    type Error = ValueError;

    fn try_from(moment: Moment) -> Result<Self, ValueError> {
        let (date, time, seconds) = moment.all_parts()?;
        let offset = UtcOffset::from_whole_seconds(seconds).map_err(unrepresentable)?;
        let local = PrimitiveDateTime::new(date.try_into()?, time.try_into()?);
        Ok(local.assume_offset(offset))
    }
}
