//! What is known of a moment that is written or read.

use core::cmp::Ordering;

use crate::date::Date;
use crate::range::{Number, RangeError};
use crate::sys::RawMoment;
use crate::time_of_day::Time;
#[cfg(any(feature = "std", feature = "time", feature = "chrono", feature = "jiff"))]
use crate::{lack::Lack, value_error::ValueError};

/// A date, a time of day, an offset from UTC, or some of these.
///
/// ```
/// use timefd::{Date, Moment, Time};
///
/// let day = Moment::from(Date::new(2026, 11, 23)?);
/// assert_eq!(day.to_string(), "2026-11-23");
///
/// let noon = Moment { time: Some(Time::new(12, 0, 0, 0)?), ..day };
/// assert_eq!(noon.to_string(), "2026-11-23T12:00:00");
///
/// let noon = Moment { offset_seconds: Some(3600), ..noon };
/// assert_eq!(noon.to_string(), "2026-11-23T12:00:00+01:00");
/// assert_eq!("2026-11-23T12:00:00+01:00".parse::<Moment>()?, noon);
/// # Ok::<(), Box<dyn std::error::Error>>(())
/// ```
///
/// It displays in the forms of RFC 3339 and ISO 8601, and is parsed from such a text.
///
/// Moments of which all three parts are known are in the order of time, whatever their offsets are.
/// Others are ordered by their parts: the date, the time, the offset; and those that lack a part come
/// before those that have it.
#[derive(Debug, Clone, Copy, Default, PartialEq, Eq, Hash)]
pub struct Moment {
    /// The day of the calendar.
    pub date: Option<Date>,
    /// The time of day.
    pub time: Option<Time>,
    /// How many seconds the clock is ahead of UTC; negative if it is behind. Less than 26 hours
    /// either way.
    pub offset_seconds: Option<i32>,
}

impl Moment {
    /// The same as the library takes it.
    #[inline(always)]
    pub(crate) fn raw(&self) -> RawMoment {
        match *self {
            // Of most moments all is known: then nothing has to be set to 0 first.
            Self { date: Some(date), time: Some(time), offset_seconds: Some(offset_seconds) } => {
                RawMoment {
                    known: RawMoment::HAS_DATE | RawMoment::HAS_TIME | RawMoment::HAS_OFFSET,
                    year: date.year,
                    nanosecond: time.nanosecond,
                    offset_seconds,
                    month: date.month,
                    day: date.day,
                    hour: time.hour,
                    minute: time.minute,
                    second: time.second,
                }
            }
            _ => self.raw_parts(),
        }
    }

    /// The same of a moment of which some parts aren't known.
    #[inline(never)]
    fn raw_parts(&self) -> RawMoment {
        let mut raw = RawMoment::default();
        if let Some(date) = self.date {
            raw.known |= RawMoment::HAS_DATE;
            (raw.year, raw.month, raw.day) = (date.year, date.month, date.day);
        }
        if let Some(time) = self.time {
            raw.known |= RawMoment::HAS_TIME;
            (raw.hour, raw.minute, raw.second) = (time.hour, time.minute, time.second);
            raw.nanosecond = time.nanosecond;
        }
        if let Some(seconds) = self.offset_seconds {
            raw.known |= RawMoment::HAS_OFFSET;
            raw.offset_seconds = seconds;
        }
        raw
    }

    /// What the library says is known.
    pub(crate) fn of_raw(raw: &RawMoment) -> Self {
        let is_known = |bit| raw.known & bit != 0;
        let date = Date { year: raw.year, month: raw.month, day: raw.day };
        let time = Time {
            hour: raw.hour,
            minute: raw.minute,
            second: raw.second,
            nanosecond: raw.nanosecond,
        };
        Self {
            date: is_known(RawMoment::HAS_DATE).then_some(date),
            time: is_known(RawMoment::HAS_TIME).then_some(time),
            offset_seconds: is_known(RawMoment::HAS_OFFSET).then_some(raw.offset_seconds),
        }
    }

    /// Whether each of its numbers is in its range.
    ///
    /// # Errors
    ///
    /// The first number that is out of its range.
    ///
    /// ```
    /// use timefd::{Date, Moment, Number};
    ///
    /// let moment = Moment::from(Date { year: 2026, month: 11, day: 31 });
    /// assert_eq!(moment.check().unwrap_err().number(), Number::Day);
    /// ```
    pub fn check(&self) -> Result<(), RangeError> {
        self.date.map_or(Ok(()), |date| date.checked().map(drop))?;
        self.time.map_or(Ok(()), |time| time.checked().map(drop))?;
        let is_far = |seconds: &i32| seconds.unsigned_abs() >= 26 * 3_600;
        if self.offset_seconds.as_ref().is_some_and(is_far) {
            return Err(RangeError::new(Number::Offset));
        }
        Ok(())
    }

    /// Its date, its time of day and its offset.
    #[cfg(any(feature = "std", feature = "time", feature = "chrono", feature = "jiff"))]
    pub(crate) fn all_parts(&self) -> Result<(Date, Time, i32), ValueError> {
        self.check()?;
        let date = self.date.ok_or(Lack::NoDate)?;
        let time = self.time.ok_or(Lack::NoTime)?;
        Ok((date, time, self.offset_seconds.ok_or(Lack::NoOffset)?))
    }

    /// Its date and its time of day, if it has no offset that would be lost.
    #[cfg(any(feature = "time", feature = "chrono", feature = "jiff"))]
    pub(crate) fn local_parts(&self) -> Result<(Date, Time), ValueError> {
        self.check()?;
        let date = self.date.ok_or(Lack::NoDate)?;
        let time = self.time.ok_or(Lack::NoTime)?;
        match self.offset_seconds {
            None => Ok((date, time)),
            Some(_) => Err(ValueError::OffsetLost),
        }
    }

    /// How many whole seconds it is after 1970-01-01T00:00:00Z, if that is known.
    pub(crate) fn unix_seconds(&self) -> Option<i64> {
        let seconds = self.date?.unix_days() * 86_400 + self.time?.seconds();
        Some(seconds - i64::from(self.offset_seconds?))
    }
}

impl From<Date> for Moment {
    fn from(date: Date) -> Self {
        Self { date: Some(date), ..Self::default() }
    }
}

impl From<Time> for Moment {
    fn from(time: Time) -> Self {
        Self { time: Some(time), ..Self::default() }
    }
}

impl From<(Date, Time)> for Moment {
    fn from((date, time): (Date, Time)) -> Self {
        Self { date: Some(date), time: Some(time), offset_seconds: None }
    }
}

impl Ord for Moment {
    fn cmp(&self, other: &Self) -> Ordering {
        let key = |moment: &Self| {
            let known = (moment.date.is_some(), moment.time.is_some());
            let instant = moment.unix_seconds().zip(moment.time.map(|time| time.nanosecond));
            let parts = (moment.date, moment.time, moment.offset_seconds);
            (known, moment.offset_seconds.is_some(), instant, parts)
        };
        key(self).cmp(&key(other))
    }
}

impl PartialOrd for Moment {
    fn partial_cmp(&self, other: &Self) -> Option<Ordering> {
        Some(self.cmp(other))
    }
}
