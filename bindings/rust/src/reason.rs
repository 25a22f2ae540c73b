//! Why a part of a format has no text of version 3. `tables/write` writes them.

/// Why a part of a format has no text of version 3.
#[derive(Debug, Clone, Copy, PartialEq, Eq, Hash)]
#[non_exhaustive]
pub enum Reason {
    /// A `\` takes the meaning of the next token away.
    Backslash,
    /// It writes a name in capitals, or changes their case.
    Capitals,
    /// Ruby's `DateTime` alone has it.
    DatetimeOnly,
    /// It writes a period of the day, like `in the morning`.
    DayPeriod,
    /// It writes an era, and version 3 has none.
    Era,
    /// This directive takes no such flag, and none with a width.
    Flag,
    /// It writes a fraction of a second of more than nine digits.
    FractionWidth,
    /// It writes an offset as `GMT+1`.
    GmtOffset,
    /// It counts hours from 0 to 11 or from 1 to 24.
    HourFrom0Or24,
    /// It counts days from a day long ago.
    JulianDay,
    /// It depends on the time zone of the process.
    LocalTime,
    /// It counts weeks or weekdays as a locale does, or writes the year of such weeks.
    LocalWeek,
    /// What it writes depends on the locale.
    Locale,
    /// It writes the first letter of a name.
    NarrowName,
    /// A part in `[` and `]` is optional.
    OptionalPart,
    /// It writes a number like `1st`.
    OrdinalSuffix,
    /// It pads the next letter to a width.
    PadLetter,
    /// Platforms differ in what it writes.
    Platform,
    /// It writes a quarter, and version 3 has none.
    Quarter,
    /// It can be read, and not be written.
    ReadingOnly,
    /// The character is reserved.
    Reserved,
    /// No pattern repeats this letter so often.
    TooManyLetters,
    /// It reads two digits of a year, which leave the century open.
    TwoDigitYear,
    /// It writes a weekday in two letters.
    TwoLetterName,
    /// No quote closes this one.
    UnclosedQuote,
    /// It counts milliseconds or nanoseconds from midnight on.
    UnitOfDay,
    /// The dialect has no such directive.
    UnknownDirective,
    /// The letter has no meaning and isn't quoted.
    UnknownLetter,
    /// Libraries differ in what it means, or lack it.
    Unsupported,
    /// It writes as many digits of a fraction as it has, or none.
    VariableFraction,
    /// It writes as much of an offset as there is.
    VariableOffset,
    /// Its width depends on the value.
    VariableWidth,
    /// It counts weeks or weekdays within the month.
    WeekOfMonth,
    /// No component of version 3 has this width.
    Width,
    /// It writes `Z` for an offset of zero.
    ZForUtc,
    /// It writes the name of a time zone.
    ZoneName,
}

impl Reason {
    /// The reason with this number in the header.
    pub(crate) fn from_number(number: u32) -> Option<Self> {
        Some(match number {
            1 => Self::Backslash,
            2 => Self::Capitals,
            3 => Self::DatetimeOnly,
            4 => Self::DayPeriod,
            5 => Self::Era,
            6 => Self::Flag,
            7 => Self::FractionWidth,
            8 => Self::GmtOffset,
            9 => Self::HourFrom0Or24,
            10 => Self::JulianDay,
            11 => Self::LocalTime,
            12 => Self::LocalWeek,
            13 => Self::Locale,
            14 => Self::NarrowName,
            15 => Self::OptionalPart,
            16 => Self::OrdinalSuffix,
            17 => Self::PadLetter,
            18 => Self::Platform,
            19 => Self::Quarter,
            20 => Self::ReadingOnly,
            21 => Self::Reserved,
            22 => Self::TooManyLetters,
            36 => Self::TwoDigitYear,
            23 => Self::TwoLetterName,
            24 => Self::UnclosedQuote,
            25 => Self::UnitOfDay,
            26 => Self::UnknownDirective,
            27 => Self::UnknownLetter,
            28 => Self::Unsupported,
            29 => Self::VariableFraction,
            30 => Self::VariableOffset,
            31 => Self::VariableWidth,
            32 => Self::WeekOfMonth,
            33 => Self::Width,
            34 => Self::ZForUtc,
            35 => Self::ZoneName,
            _ => return None,
        })
    }

    /// The name of the reason, such as `zone-name`.
    #[must_use]
    pub fn name(self) -> &'static str {
        match self {
            Self::Backslash => "backslash",
            Self::Capitals => "capitals",
            Self::DatetimeOnly => "datetime-only",
            Self::DayPeriod => "day-period",
            Self::Era => "era",
            Self::Flag => "flag",
            Self::FractionWidth => "fraction-width",
            Self::GmtOffset => "gmt-offset",
            Self::HourFrom0Or24 => "hour-from-0-or-24",
            Self::JulianDay => "julian-day",
            Self::LocalTime => "local-time",
            Self::LocalWeek => "local-week",
            Self::Locale => "locale",
            Self::NarrowName => "narrow-name",
            Self::OptionalPart => "optional-part",
            Self::OrdinalSuffix => "ordinal-suffix",
            Self::PadLetter => "pad-letter",
            Self::Platform => "platform",
            Self::Quarter => "quarter",
            Self::ReadingOnly => "reading-only",
            Self::Reserved => "reserved",
            Self::TooManyLetters => "too-many-letters",
            Self::TwoDigitYear => "two-digit-year",
            Self::TwoLetterName => "two-letter-name",
            Self::UnclosedQuote => "unclosed-quote",
            Self::UnitOfDay => "unit-of-day",
            Self::UnknownDirective => "unknown-directive",
            Self::UnknownLetter => "unknown-letter",
            Self::Unsupported => "unsupported",
            Self::VariableFraction => "variable-fraction",
            Self::VariableOffset => "variable-offset",
            Self::VariableWidth => "variable-width",
            Self::WeekOfMonth => "week-of-month",
            Self::Width => "width",
            Self::ZForUtc => "z-for-utc",
            Self::ZoneName => "zone-name",
        }
    }

    /// Why a part has no text of version 3, as a sentence without a capital and a full stop.
    #[must_use]
    pub fn sentence(self) -> &'static str {
        match self {
            Self::Backslash => "a `\\` takes the meaning of the next token away",
            Self::Capitals => "it writes a name in capitals, or changes their case",
            Self::DatetimeOnly => "Ruby's `DateTime` alone has it",
            Self::DayPeriod => "it writes a period of the day, like `in the morning`",
            Self::Era => "it writes an era, and version 3 has none",
            Self::Flag => "this directive takes no such flag, and none with a width",
            Self::FractionWidth => "it writes a fraction of a second of more than nine digits",
            Self::GmtOffset => "it writes an offset as `GMT+1`",
            Self::HourFrom0Or24 => "it counts hours from 0 to 11 or from 1 to 24",
            Self::JulianDay => "it counts days from a day long ago",
            Self::LocalTime => "it depends on the time zone of the process",
            Self::LocalWeek => {
                "it counts weeks or weekdays as a locale does, or writes the year of such weeks"
            }
            Self::Locale => "what it writes depends on the locale",
            Self::NarrowName => "it writes the first letter of a name",
            Self::OptionalPart => "a part in `[` and `]` is optional",
            Self::OrdinalSuffix => "it writes a number like `1st`",
            Self::PadLetter => "it pads the next letter to a width",
            Self::Platform => "platforms differ in what it writes",
            Self::Quarter => "it writes a quarter, and version 3 has none",
            Self::ReadingOnly => "it can be read, and not be written",
            Self::Reserved => "the character is reserved",
            Self::TooManyLetters => "no pattern repeats this letter so often",
            Self::TwoDigitYear => "it reads two digits of a year, which leave the century open",
            Self::TwoLetterName => "it writes a weekday in two letters",
            Self::UnclosedQuote => "no quote closes this one",
            Self::UnitOfDay => "it counts milliseconds or nanoseconds from midnight on",
            Self::UnknownDirective => "the dialect has no such directive",
            Self::UnknownLetter => "the letter has no meaning and isn't quoted",
            Self::Unsupported => "libraries differ in what it means, or lack it",
            Self::VariableFraction => "it writes as many digits of a fraction as it has, or none",
            Self::VariableOffset => "it writes as much of an offset as there is",
            Self::VariableWidth => "its width depends on the value",
            Self::WeekOfMonth => "it counts weeks or weekdays within the month",
            Self::Width => "no component of version 3 has this width",
            Self::ZForUtc => "it writes `Z` for an offset of zero",
            Self::ZoneName => "it writes the name of a time zone",
        }
    }

    /// What to do about it, in a sentence.
    #[must_use]
    pub fn cure(self) -> &'static str {
        match self {
            Self::Backslash => "Write the text between `[` and `]`.",
            Self::Capitals => "Write the name without the flag, and change its case afterwards.",
            Self::DatetimeOnly => "Write a directive that `Time` has too.",
            Self::DayPeriod => "Write `a`, for AM and PM.",
            Self::Era => "Write the year alone, or the era as a literal.",
            Self::Flag => "Leave the flag and the width out, or choose another directive.",
            Self::FractionWidth => "Write at most nine digits.",
            Self::GmtOffset => "Write the offset in digits.",
            Self::HourFrom0Or24 => "Write the hour of 24 from 0 on, or of 12 from 1 on.",
            Self::JulianDay => "Count the days in a program.",
            Self::LocalTime => "Write a directive that depends on the moment alone.",
            Self::LocalWeek => "Write the week of ISO 8601, or the year of the calendar.",
            Self::Locale => "Write each part by a directive of its own.",
            Self::NarrowName => "Write the short name.",
            Self::OptionalPart => {
                "Convert the part alone, and put its text into `[optional [..]]`."
            }
            Self::OrdinalSuffix => "Write the number alone.",
            Self::PadLetter => "Write the next letter as often as it has digits.",
            Self::Platform => "Write a directive that all platforms have.",
            Self::Quarter => "Write the month, or count the quarter in a program.",
            Self::ReadingOnly => "Write a directive for writing.",
            Self::Reserved => "Quote it if it is meant as text, or leave it out.",
            Self::TooManyLetters => "Write fewer of them.",
            Self::TwoDigitYear => "Read by a format with all digits of the year.",
            Self::TwoLetterName => "Write the short name, of three letters.",
            Self::UnclosedQuote => "Close it; write a literal quote twice.",
            Self::UnitOfDay => "Write hour, minute, second and fraction.",
            Self::UnknownDirective => "Write one that it has; write a literal `%` twice.",
            Self::UnknownLetter => "Quote it if it is meant as text.",
            Self::Unsupported => "Write a directive that has one meaning.",
            Self::VariableFraction => "Write a fixed number of digits.",
            Self::VariableOffset => "Write the offset with its minutes.",
            Self::VariableWidth => "Write the value with a fixed width.",
            Self::WeekOfMonth => "Write the day of the month.",
            Self::Width => {
                "Leave the width out, and write what it fills as a literal, like `0[day]` for `%3d`."
            }
            Self::ZForUtc => {
                "Write the offset in digits, or `Z` as a literal where each moment is one of UTC."
            }
            Self::ZoneName => "Write the offset, or the name as a literal.",
        }
    }
}
