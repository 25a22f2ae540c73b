//! What can be read of a moment.

/// What can be read of a moment. Several components read the same part.
#[derive(Debug, Clone, Copy, PartialEq, Eq, Hash)]
#[non_exhaustive]
pub enum MomentPart {
    /// The day of the month.
    Day,
    /// The month.
    Month,
    /// The day of the year.
    Ordinal,
    /// The day of the week.
    Weekday,
    /// The week by ISO 8601.
    IsoWeek,
    /// The week of the year, where weeks begin on Sunday.
    SundayWeek,
    /// The week of the year, where weeks begin on Monday.
    MondayWeek,
    /// The last two digits of the year.
    YearLastTwo,
    /// The hundreds of the year.
    Century,
    /// The year.
    Year,
    /// The last two digits of the year of the week by ISO 8601.
    IsoYearLastTwo,
    /// The hundreds of that year.
    IsoCentury,
    /// That year.
    IsoYear,
    /// The hour of the 24-hour clock.
    Hour,
    /// The hour of the 12-hour clock.
    Hour12,
    /// AM or PM.
    Period,
    /// The minute.
    Minute,
    /// The second.
    Second,
    /// The fraction of the second.
    Subsecond,
    /// The hours of the offset from UTC.
    OffsetHour,
    /// Its minutes.
    OffsetMinute,
    /// Its seconds.
    OffsetSecond,
    /// The Unix timestamp in seconds.
    UnixSecond,
    /// The Unix timestamp in milliseconds.
    UnixMillisecond,
    /// The Unix timestamp in microseconds.
    UnixMicrosecond,
    /// The Unix timestamp in nanoseconds.
    UnixNanosecond,
}

impl MomentPart {
    /// The one that the header has this number for.
    pub(crate) fn from_number(number: u32) -> Option<Self> {
        Some(match number {
            1 => Self::Day,
            2 => Self::Month,
            3 => Self::Ordinal,
            4 => Self::Weekday,
            5 => Self::IsoWeek,
            6 => Self::SundayWeek,
            7 => Self::MondayWeek,
            8 => Self::YearLastTwo,
            9 => Self::Century,
            10 => Self::Year,
            11 => Self::IsoYearLastTwo,
            12 => Self::IsoCentury,
            13 => Self::IsoYear,
            14 => Self::Hour,
            15 => Self::Hour12,
            16 => Self::Period,
            17 => Self::Minute,
            18 => Self::Second,
            19 => Self::Subsecond,
            20 => Self::OffsetHour,
            21 => Self::OffsetMinute,
            22 => Self::OffsetSecond,
            23 => Self::UnixSecond,
            24 => Self::UnixMillisecond,
            25 => Self::UnixMicrosecond,
            26 => Self::UnixNanosecond,
            _ => return None,
        })
    }

    /// Its name in a sentence.
    pub(crate) fn words(self) -> &'static str {
        match self {
            Self::Day => "day",
            Self::Month => "month",
            Self::Ordinal => "day of the year",
            Self::Weekday => "weekday",
            Self::IsoWeek => "ISO week",
            Self::SundayWeek => "week from Sunday",
            Self::MondayWeek => "week from Monday",
            Self::YearLastTwo => "last two digits of the year",
            Self::Century => "century",
            Self::Year => "year",
            Self::IsoYearLastTwo => "last two digits of the ISO year",
            Self::IsoCentury => "century of the ISO year",
            Self::IsoYear => "ISO year",
            Self::Hour => "hour",
            Self::Hour12 => "hour of twelve",
            Self::Period => "period",
            Self::Minute => "minute",
            Self::Second => "second",
            Self::Subsecond => "fraction of a second",
            Self::OffsetHour => "hour of the offset",
            Self::OffsetMinute => "minute of the offset",
            Self::OffsetSecond => "second of the offset",
            Self::UnixSecond => "Unix timestamp in seconds",
            Self::UnixMillisecond => "Unix timestamp in milliseconds",
            Self::UnixMicrosecond => "Unix timestamp in microseconds",
            Self::UnixNanosecond => "Unix timestamp in nanoseconds",
        }
    }
}
