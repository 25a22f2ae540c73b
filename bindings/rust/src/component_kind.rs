//! Which component it is, whatever its modifiers are.

use core::fmt;

use crate::component::Component;

/// Which component it is, whatever its modifiers are. It shows itself as the name that brackets of
/// it begin with.
///
/// ```
/// use timefd::{ComponentKind, Date, FormatError, Moment, Version};
///
/// let day = Moment::from(Date::new(2026, 11, 23)?);
/// let error = timefd::format(Version::Three, "[day], [hour]", &day).unwrap_err();
/// let FormatError::Unshown { component, .. } = &error else { panic!("{error}") };
/// assert_eq!((*component, component.name()), (ComponentKind::Hour24, "hour"));
/// assert_eq!(
///     error.to_string(),
///     "the component `hour` shows nothing: the value has no time of day"
/// );
/// # Ok::<(), timefd::RangeError>(())
/// ```
#[derive(Debug, Clone, Copy, PartialEq, Eq, PartialOrd, Ord, Hash)]
#[non_exhaustive]
pub enum ComponentKind {
    /// Day of the month.
    Day,
    /// Month as an abbreviated English name.
    MonthShort,
    /// Month as a full English name.
    MonthLong,
    /// Month as a number.
    MonthNumerical,
    /// Day of the year.
    Ordinal,
    /// Day of the week as an abbreviated English name.
    WeekdayShort,
    /// Day of the week as a full English name.
    WeekdayLong,
    /// Day of the week as a number, where Sunday comes first.
    WeekdaySunday,
    /// Day of the week as a number, where Monday comes first.
    WeekdayMonday,
    /// Week of the year by ISO 8601.
    WeekNumberIso,
    /// Week of the year, where weeks begin on Sunday.
    WeekNumberSunday,
    /// Week of the year, where weeks begin on Monday.
    WeekNumberMonday,
    /// Calendar year, of up to six digits.
    CalendarYearFullExtendedRange,
    /// Calendar year, of up to four digits.
    CalendarYearFullStandardRange,
    /// Century of the calendar year, of up to four digits.
    CalendarYearCenturyExtendedRange,
    /// Century of the calendar year, of up to two digits.
    CalendarYearCenturyStandardRange,
    /// ISO week-numbering year, of up to six digits.
    IsoYearFullExtendedRange,
    /// ISO week-numbering year, of up to four digits.
    IsoYearFullStandardRange,
    /// Century of the ISO week-numbering year, of up to four digits.
    IsoYearCenturyExtendedRange,
    /// Century of the ISO week-numbering year, of up to two digits.
    IsoYearCenturyStandardRange,
    /// Last two digits of the calendar year.
    CalendarYearLastTwo,
    /// Last two digits of the ISO week-numbering year.
    IsoYearLastTwo,
    /// Hour of the 12-hour clock.
    Hour12,
    /// Hour of the 24-hour clock.
    Hour24,
    /// Minute within the hour.
    Minute,
    /// AM or PM.
    Period,
    /// Second within the minute.
    Second,
    /// Digits of the second's fraction.
    Subsecond,
    /// Hours of the UTC offset, with its sign.
    OffsetHour,
    /// Minutes within the hour of the UTC offset.
    OffsetMinute,
    /// Seconds within the minute of the UTC offset.
    OffsetSecond,
    /// Bytes that a parser skips.
    Ignore,
    /// Unix timestamp in seconds.
    UnixTimestampSecond,
    /// Unix timestamp in milliseconds.
    UnixTimestampMillisecond,
    /// Unix timestamp in microseconds.
    UnixTimestampMicrosecond,
    /// Unix timestamp in nanoseconds.
    UnixTimestampNanosecond,
    /// End of the input.
    End,
}

impl ComponentKind {
    /// The name that brackets of the component begin with, as `year`.
    #[must_use]
    pub fn name(self) -> &'static str {
        match self {
            Self::Day => "day",
            Self::MonthShort | Self::MonthLong | Self::MonthNumerical => "month",
            Self::Ordinal => "ordinal",
            Self::WeekdayShort | Self::WeekdayLong | Self::WeekdaySunday | Self::WeekdayMonday => {
                "weekday"
            }
            Self::WeekNumberIso | Self::WeekNumberSunday | Self::WeekNumberMonday => "week_number",
            Self::CalendarYearFullExtendedRange
            | Self::CalendarYearFullStandardRange
            | Self::CalendarYearCenturyExtendedRange
            | Self::CalendarYearCenturyStandardRange
            | Self::IsoYearFullExtendedRange
            | Self::IsoYearFullStandardRange
            | Self::IsoYearCenturyExtendedRange
            | Self::IsoYearCenturyStandardRange
            | Self::CalendarYearLastTwo
            | Self::IsoYearLastTwo => "year",
            Self::Hour12 | Self::Hour24 => "hour",
            Self::Minute => "minute",
            Self::Period => "period",
            Self::Second => "second",
            Self::Subsecond => "subsecond",
            Self::OffsetHour => "offset_hour",
            Self::OffsetMinute => "offset_minute",
            Self::OffsetSecond => "offset_second",
            Self::Ignore => "ignore",
            Self::UnixTimestampSecond
            | Self::UnixTimestampMillisecond
            | Self::UnixTimestampMicrosecond
            | Self::UnixTimestampNanosecond => "unix_timestamp",
            Self::End => "end",
        }
    }

    /// The one that the header has this number for.
    pub(crate) fn from_number(number: u32) -> Option<Self> {
        Some(match number {
            1 => Self::Day,
            2 => Self::MonthShort,
            3 => Self::MonthLong,
            4 => Self::MonthNumerical,
            5 => Self::Ordinal,
            6 => Self::WeekdayShort,
            7 => Self::WeekdayLong,
            8 => Self::WeekdaySunday,
            9 => Self::WeekdayMonday,
            10 => Self::WeekNumberIso,
            11 => Self::WeekNumberSunday,
            12 => Self::WeekNumberMonday,
            13 => Self::CalendarYearFullExtendedRange,
            14 => Self::CalendarYearFullStandardRange,
            15 => Self::CalendarYearCenturyExtendedRange,
            16 => Self::CalendarYearCenturyStandardRange,
            17 => Self::IsoYearFullExtendedRange,
            18 => Self::IsoYearFullStandardRange,
            19 => Self::IsoYearCenturyExtendedRange,
            20 => Self::IsoYearCenturyStandardRange,
            21 => Self::CalendarYearLastTwo,
            22 => Self::IsoYearLastTwo,
            23 => Self::Hour12,
            24 => Self::Hour24,
            25 => Self::Minute,
            26 => Self::Period,
            27 => Self::Second,
            28 => Self::Subsecond,
            29 => Self::OffsetHour,
            30 => Self::OffsetMinute,
            31 => Self::OffsetSecond,
            32 => Self::Ignore,
            33 => Self::UnixTimestampSecond,
            34 => Self::UnixTimestampMillisecond,
            35 => Self::UnixTimestampMicrosecond,
            36 => Self::UnixTimestampNanosecond,
            37 => Self::End,
            _ => return None,
        })
    }
}

impl fmt::Display for ComponentKind {
    fn fmt(&self, f: &mut fmt::Formatter<'_>) -> fmt::Result {
        f.pad(self.name())
    }
}

impl Component {
    /// Which component it is.
    ///
    /// ```
    /// use timefd::{Component, Padding};
    ///
    /// assert_eq!(Component::MonthNumerical { padding: Padding::Zero }.kind().name(), "month");
    /// ```
    #[must_use]
    pub fn kind(self) -> ComponentKind {
        match self {
            Self::Day { .. } => ComponentKind::Day,
            Self::MonthShort { .. } => ComponentKind::MonthShort,
            Self::MonthLong { .. } => ComponentKind::MonthLong,
            Self::MonthNumerical { .. } => ComponentKind::MonthNumerical,
            Self::Ordinal { .. } => ComponentKind::Ordinal,
            Self::WeekdayShort { .. } => ComponentKind::WeekdayShort,
            Self::WeekdayLong { .. } => ComponentKind::WeekdayLong,
            Self::WeekdaySunday { .. } => ComponentKind::WeekdaySunday,
            Self::WeekdayMonday { .. } => ComponentKind::WeekdayMonday,
            Self::WeekNumberIso { .. } => ComponentKind::WeekNumberIso,
            Self::WeekNumberSunday { .. } => ComponentKind::WeekNumberSunday,
            Self::WeekNumberMonday { .. } => ComponentKind::WeekNumberMonday,
            Self::CalendarYearFullExtendedRange { .. } => {
                ComponentKind::CalendarYearFullExtendedRange
            }
            Self::CalendarYearFullStandardRange { .. } => {
                ComponentKind::CalendarYearFullStandardRange
            }
            Self::CalendarYearCenturyExtendedRange { .. } => {
                ComponentKind::CalendarYearCenturyExtendedRange
            }
            Self::CalendarYearCenturyStandardRange { .. } => {
                ComponentKind::CalendarYearCenturyStandardRange
            }
            Self::IsoYearFullExtendedRange { .. } => ComponentKind::IsoYearFullExtendedRange,
            Self::IsoYearFullStandardRange { .. } => ComponentKind::IsoYearFullStandardRange,
            Self::IsoYearCenturyExtendedRange { .. } => ComponentKind::IsoYearCenturyExtendedRange,
            Self::IsoYearCenturyStandardRange { .. } => ComponentKind::IsoYearCenturyStandardRange,
            Self::CalendarYearLastTwo { .. } => ComponentKind::CalendarYearLastTwo,
            Self::IsoYearLastTwo { .. } => ComponentKind::IsoYearLastTwo,
            Self::Hour12 { .. } => ComponentKind::Hour12,
            Self::Hour24 { .. } => ComponentKind::Hour24,
            Self::Minute { .. } => ComponentKind::Minute,
            Self::Period { .. } => ComponentKind::Period,
            Self::Second { .. } => ComponentKind::Second,
            Self::Subsecond { .. } => ComponentKind::Subsecond,
            Self::OffsetHour { .. } => ComponentKind::OffsetHour,
            Self::OffsetMinute { .. } => ComponentKind::OffsetMinute,
            Self::OffsetSecond { .. } => ComponentKind::OffsetSecond,
            Self::Ignore { .. } => ComponentKind::Ignore,
            Self::UnixTimestampSecond { .. } => ComponentKind::UnixTimestampSecond,
            Self::UnixTimestampMillisecond { .. } => ComponentKind::UnixTimestampMillisecond,
            Self::UnixTimestampMicrosecond { .. } => ComponentKind::UnixTimestampMicrosecond,
            Self::UnixTimestampNanosecond { .. } => ComponentKind::UnixTimestampNanosecond,
            Self::End { .. } => ComponentKind::End,
        }
    }
}
