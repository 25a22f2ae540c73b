//! Moments from and to the clock of the system.

use std::time::{Duration, SystemTime, UNIX_EPOCH};

use crate::date::Date;
use crate::moment::Moment;
use crate::range::{Number, RangeError};
use crate::time_of_day::Time;
use crate::value_error::ValueError;

impl Moment {
    /// What the system's clock says, in UTC.
    ///
    /// # Panics
    ///
    /// The clock is set to a year beyond 999,999.
    ///
    /// ```
    /// use timefd::Moment;
    ///
    /// println!("{}", Moment::now_utc()); // as 2026-11-23T12:34:56.789012345+00:00
    /// ```
    #[must_use]
    pub fn now_utc() -> Self {
        Self::try_from(SystemTime::now()).expect("the clock is set to a year that is known")
    }
}

/// In UTC.
///
/// ```
/// use std::time::{Duration, UNIX_EPOCH};
/// use timefd::Moment;
///
/// let moment = Moment::try_from(UNIX_EPOCH + Duration::from_secs(86_400))?;
/// assert_eq!(moment.to_string(), "1970-01-02T00:00:00+00:00");
/// # Ok::<(), timefd::RangeError>(())
/// ```
impl TryFrom<SystemTime> for Moment {
    type Error = RangeError;

    /// # Errors
    ///
    /// The year is beyond 999,999, or before -999,999.
    fn try_from(time: SystemTime) -> Result<Self, RangeError> {
        let (seconds, nanosecond) = match time.duration_since(UNIX_EPOCH) {
            Ok(after) => (seconds_of(after)?, after.subsec_nanos()),
            Err(error) => {
                let before = error.duration();
                match before.subsec_nanos() {
                    0 => (-seconds_of(before)?, 0),
                    nanos => (-seconds_of(before)? - 1, 1_000_000_000 - nanos),
                }
            }
        };
        let date = Date::of_unix_days(seconds.div_euclid(86_400)).ok_or(BEYOND)?;
        let time = Time::of_seconds(seconds.rem_euclid(86_400), nanosecond);
        Ok(Self { date: Some(date), time: Some(time), offset_seconds: Some(0) })
    }
}

/// Its year is out of its range.
const BEYOND: RangeError = RangeError::new(Number::Year);

fn seconds_of(duration: Duration) -> Result<i64, RangeError> {
    i64::try_from(duration.as_secs()).map_err(|_| BEYOND)
}

/// ```
/// use std::time::{Duration, SystemTime, UNIX_EPOCH};
/// use timefd::Moment;
///
/// let moment: Moment = "1970-01-01T01:00:00.5+01:00".parse()?;
/// assert_eq!(SystemTime::try_from(moment)?, UNIX_EPOCH + Duration::from_millis(500));
/// # Ok::<(), Box<dyn std::error::Error>>(())
/// ```
impl TryFrom<Moment> for SystemTime {
    type Error = ValueError;

    /// # Errors
    ///
    /// The moment lacks its date, time or offset, one of its numbers is out of its range, or the
    /// system has no such time.
    fn try_from(moment: Moment) -> Result<Self, ValueError> {
        let (_, time, _) = moment.all_parts()?;
        let seconds = moment.unix_seconds().ok_or(ValueError::Unrepresentable)?;
        let whole = Duration::from_secs(seconds.unsigned_abs());
        let at_second = match seconds < 0 {
            true => UNIX_EPOCH.checked_sub(whole),
            false => UNIX_EPOCH.checked_add(whole),
        };
        let nanoseconds = Duration::from_nanos(time.nanosecond.into());
        at_second.and_then(|it| it.checked_add(nanoseconds)).ok_or(ValueError::Unrepresentable)
    }
}
