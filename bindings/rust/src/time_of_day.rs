//! Times of day.

use crate::range::{Number, RangeError};

/// What a clock shows. By default it is midnight. It displays as `05:06:07`, or with a fraction
/// as `05:06:07.5`, and is parsed from such a text, or from `05:06`.
///
/// ```
/// use timefd::Time;
///
/// let time = Time::new(5, 6, 7, 500_000_000)?;
/// assert_eq!(time.to_string(), "05:06:07.5");
/// assert_eq!("05:06:07.5".parse::<Time>()?, time);
/// # Ok::<(), Box<dyn std::error::Error>>(())
/// ```
///
/// Its fields can be set to what isn't a time: then writing it is an error.
#[derive(Debug, Clone, Copy, Default, PartialEq, Eq, PartialOrd, Ord, Hash)]
pub struct Time {
    /// From 0 to 23.
    pub hour: u8,
    /// From 0 to 59.
    pub minute: u8,
    /// From 0 to 59.
    pub second: u8,
    /// From 0 to 999,999,999.
    pub nanosecond: u32,
}

impl Time {
    /// The time of day that has these numbers.
    ///
    /// # Errors
    ///
    /// The first of the numbers that is out of its range.
    pub const fn new(
        hour: u8,
        minute: u8,
        second: u8,
        nanosecond: u32,
    ) -> Result<Self, RangeError> {
        let number = if hour > 23 {
            Number::Hour
        } else if minute > 59 {
            Number::Minute
        } else if second > 59 {
            Number::Second
        } else if nanosecond > 999_999_999 {
            Number::Nanosecond
        } else {
            return Ok(Self { hour, minute, second, nanosecond });
        };
        Err(RangeError::new(number))
    }

    /// The same, if it is a time of day.
    pub(crate) fn checked(self) -> Result<Self, RangeError> {
        Self::new(self.hour, self.minute, self.second, self.nanosecond)
    }

    /// How many whole seconds it is after midnight.
    pub(crate) fn seconds(self) -> i64 {
        i64::from(self.hour) * 3_600 + i64::from(self.minute) * 60 + i64::from(self.second)
    }

    /// The time so many seconds after midnight, less than a day, and so many nanoseconds more.
    #[cfg(feature = "std")]
    pub(crate) fn of_seconds(seconds: i64, nanosecond: u32) -> Self {
        // Each fits: there are 86,400 seconds in a day.
        let (hour, minute) = ((seconds / 3_600) as u8, (seconds / 60 % 60) as u8);
        Self { hour, minute, second: (seconds % 60) as u8, nanosecond }
    }
}
