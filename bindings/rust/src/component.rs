//! The components of a description, each with its modifiers.

use core::num::NonZeroU16;

use crate::modifier::{Padding, SubsecondDigits, TrailingInput};

/// A component of a date or time, with its modifiers: those of `Component` of `time` that are not
/// deprecated.
#[derive(Debug, Clone, Copy, PartialEq, Eq, Hash)]
#[non_exhaustive]
pub enum Component {
    /// Day of the month.
    Day {
        /// How the number is filled on the left.
        padding: Padding,
    },
    /// Month as an abbreviated English name.
    MonthShort {
        /// Whether reading distinguishes capital and small letters of the name.
        case_sensitive: bool,
    },
    /// Month as a full English name.
    MonthLong {
        /// Whether reading distinguishes capital and small letters of the name.
        case_sensitive: bool,
    },
    /// Month as a number.
    MonthNumerical {
        /// How the number is filled on the left.
        padding: Padding,
    },
    /// Day of the year.
    Ordinal {
        /// How the number is filled on the left.
        padding: Padding,
    },
    /// Day of the week as an abbreviated English name.
    WeekdayShort {
        /// Whether reading distinguishes capital and small letters of the name.
        case_sensitive: bool,
    },
    /// Day of the week as a full English name.
    WeekdayLong {
        /// Whether reading distinguishes capital and small letters of the name.
        case_sensitive: bool,
    },
    /// Day of the week as a number, where Sunday comes first.
    WeekdaySunday {
        /// Whether the first day is 1; else it is 0.
        one_indexed: bool,
    },
    /// Day of the week as a number, where Monday comes first.
    WeekdayMonday {
        /// Whether the first day is 1; else it is 0.
        one_indexed: bool,
    },
    /// Week of the year by ISO 8601.
    WeekNumberIso {
        /// How the number is filled on the left.
        padding: Padding,
    },
    /// Week of the year, where weeks begin on Sunday.
    WeekNumberSunday {
        /// How the number is filled on the left.
        padding: Padding,
    },
    /// Week of the year, where weeks begin on Monday.
    WeekNumberMonday {
        /// How the number is filled on the left.
        padding: Padding,
    },
    /// Calendar year, of up to six digits.
    CalendarYearFullExtendedRange {
        /// How the number is filled on the left.
        padding: Padding,
        /// Whether a year from 0 to 9,999 has a `+`; a later one always has.
        sign_is_mandatory: bool,
    },
    /// Calendar year, of up to four digits.
    CalendarYearFullStandardRange {
        /// How the number is filled on the left.
        padding: Padding,
        /// Whether a value that is not negative has a `+`.
        sign_is_mandatory: bool,
    },
    /// Century of the calendar year, of up to four digits.
    CalendarYearCenturyExtendedRange {
        /// How the number is filled on the left.
        padding: Padding,
        /// Whether a year from 0 to 9,999 has a `+`; a later one always has.
        sign_is_mandatory: bool,
    },
    /// Century of the calendar year, of up to two digits.
    CalendarYearCenturyStandardRange {
        /// How the number is filled on the left.
        padding: Padding,
        /// Whether a value that is not negative has a `+`.
        sign_is_mandatory: bool,
    },
    /// ISO week-numbering year, of up to six digits.
    IsoYearFullExtendedRange {
        /// How the number is filled on the left.
        padding: Padding,
        /// Whether a year from 0 to 9,999 has a `+`; a later one always has.
        sign_is_mandatory: bool,
    },
    /// ISO week-numbering year, of up to four digits.
    IsoYearFullStandardRange {
        /// How the number is filled on the left.
        padding: Padding,
        /// Whether a value that is not negative has a `+`.
        sign_is_mandatory: bool,
    },
    /// Century of the ISO week-numbering year, of up to four digits.
    IsoYearCenturyExtendedRange {
        /// How the number is filled on the left.
        padding: Padding,
        /// Whether a year from 0 to 9,999 has a `+`; a later one always has.
        sign_is_mandatory: bool,
    },
    /// Century of the ISO week-numbering year, of up to two digits.
    IsoYearCenturyStandardRange {
        /// How the number is filled on the left.
        padding: Padding,
        /// Whether a value that is not negative has a `+`.
        sign_is_mandatory: bool,
    },
    /// Last two digits of the calendar year.
    CalendarYearLastTwo {
        /// How the number is filled on the left.
        padding: Padding,
    },
    /// Last two digits of the ISO week-numbering year.
    IsoYearLastTwo {
        /// How the number is filled on the left.
        padding: Padding,
    },
    /// Hour of the 12-hour clock.
    Hour12 {
        /// How the number is filled on the left.
        padding: Padding,
    },
    /// Hour of the 24-hour clock.
    Hour24 {
        /// How the number is filled on the left.
        padding: Padding,
    },
    /// Minute within the hour.
    Minute {
        /// How the number is filled on the left.
        padding: Padding,
    },
    /// AM or PM.
    Period {
        /// Whether the letters are capital ones.
        is_uppercase: bool,
        /// Whether reading distinguishes capital and small letters.
        case_sensitive: bool,
    },
    /// Second within the minute.
    Second {
        /// How the number is filled on the left.
        padding: Padding,
    },
    /// Digits of the second's fraction.
    Subsecond {
        /// How many digits are shown.
        digits: SubsecondDigits,
    },
    /// Hours of the UTC offset, with its sign.
    OffsetHour {
        /// Whether a value that is not negative has a `+`.
        sign_is_mandatory: bool,
        /// How the number is filled on the left.
        padding: Padding,
    },
    /// Minutes within the hour of the UTC offset.
    OffsetMinute {
        /// How the number is filled on the left.
        padding: Padding,
    },
    /// Seconds within the minute of the UTC offset.
    OffsetSecond {
        /// How the number is filled on the left.
        padding: Padding,
    },
    /// Bytes that a parser skips.
    Ignore {
        /// How many bytes.
        count: NonZeroU16,
    },
    /// Unix timestamp in seconds.
    UnixTimestampSecond {
        /// Whether a value that is not negative has a `+`.
        sign_is_mandatory: bool,
    },
    /// Unix timestamp in milliseconds.
    UnixTimestampMillisecond {
        /// Whether a value that is not negative has a `+`.
        sign_is_mandatory: bool,
    },
    /// Unix timestamp in microseconds.
    UnixTimestampMicrosecond {
        /// Whether a value that is not negative has a `+`.
        sign_is_mandatory: bool,
    },
    /// Unix timestamp in nanoseconds.
    UnixTimestampNanosecond {
        /// Whether a value that is not negative has a `+`.
        sign_is_mandatory: bool,
    },
    /// End of the input.
    End {
        /// What becomes of input after the end.
        trailing_input: TrailingInput,
    },
}

impl Component {
    /// The greatest length of any text that the component is shown as, in bytes.
    ///
    /// ```
    /// use timefd::{Component, Padding};
    ///
    /// assert_eq!(Component::Day { padding: Padding::Zero }.max_bytes_needed(), 2);
    /// ```
    #[must_use]
    pub fn max_bytes_needed(self) -> usize {
        match self {
            Self::Ignore { .. } | Self::End { .. } => 0,
            Self::WeekdaySunday { .. } | Self::WeekdayMonday { .. } => 1,
            Self::Day { .. }
            | Self::MonthNumerical { .. }
            | Self::WeekNumberIso { .. }
            | Self::WeekNumberSunday { .. }
            | Self::WeekNumberMonday { .. }
            | Self::CalendarYearLastTwo { .. }
            | Self::IsoYearLastTwo { .. }
            | Self::Hour12 { .. }
            | Self::Hour24 { .. }
            | Self::Minute { .. }
            | Self::Period { .. }
            | Self::Second { .. }
            | Self::OffsetMinute { .. }
            | Self::OffsetSecond { .. } => 2,
            Self::MonthShort { .. }
            | Self::Ordinal { .. }
            | Self::WeekdayShort { .. }
            | Self::CalendarYearCenturyStandardRange { .. }
            | Self::IsoYearCenturyStandardRange { .. }
            | Self::OffsetHour { .. } => 3,
            Self::CalendarYearFullStandardRange { .. }
            | Self::CalendarYearCenturyExtendedRange { .. }
            | Self::IsoYearFullStandardRange { .. }
            | Self::IsoYearCenturyExtendedRange { .. } => 5,
            Self::CalendarYearFullExtendedRange { .. } | Self::IsoYearFullExtendedRange { .. } => 7,
            Self::MonthLong { .. } | Self::WeekdayLong { .. } => 9,
            Self::UnixTimestampSecond { .. } => 15,
            Self::UnixTimestampMillisecond { .. } => 18,
            Self::UnixTimestampMicrosecond { .. } => 21,
            Self::UnixTimestampNanosecond { .. } => 24,
            Self::Subsecond { digits } => digits.at_most(),
        }
    }
}
