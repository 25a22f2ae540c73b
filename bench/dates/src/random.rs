//! Random dates.

use dates::Civil;
use time::{Date, Month, OffsetDateTime, UtcOffset};

/// A generator by shifts and exclusive ors, which starts with a number that isn't 0.
pub struct Random(u64);

impl Random {
    pub fn new(seed: u64) -> Self {
        Self(seed)
    }

    /// A number from 0 up to another, which isn't included.
    fn below(&mut self, end: u64) -> u64 {
        self.0 ^= self.0 << 13;
        self.0 ^= self.0 >> 7;
        self.0 ^= self.0 << 17;
        (self.0 >> 16) % end
    }

    /// A number from -`most` to `most`.
    fn around_zero(&mut self, most: u32) -> i32 {
        self.below(2 * u64::from(most) + 1) as i32 - most as i32
    }

    /// A date. Half of the years have at most four digits, and many of the others more.
    pub fn date(&mut self) -> Civil {
        let most = if self.below(2) == 0 { 9_999 } else { 999_990 };
        loop {
            // `time` has offsets of less than 24 hours.
            let date = Civil {
                year: self.around_zero(most),
                month: 1 + self.below(12) as u8,
                day: 1 + self.below(31) as u8,
                hour: self.below(24) as u8,
                minute: self.below(60) as u8,
                second: self.below(60) as u8,
                nanosecond: self.nanosecond(),
                offset: self.around_zero(86_399),
            };
            if date.exists() {
                return date;
            }
        }
    }

    /// A number of nanoseconds that ends with up to nine zeros.
    fn nanosecond(&mut self) -> u32 {
        let unit = 10_u64.pow(self.below(10) as u32);
        (self.below(1_000_000_000) / unit * unit) as u32
    }
}

/// The same date as one of `time`.
pub fn of_time(date: &Civil) -> Result<OffsetDateTime, time::Error> {
    let day = Date::from_calendar_date(date.year, Month::try_from(date.month)?, date.day)?;
    let time = day.with_hms_nano(date.hour, date.minute, date.second, date.nanosecond)?;
    Ok(time.assume_offset(UtcOffset::from_whole_seconds(date.offset)?))
}
