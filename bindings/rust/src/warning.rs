//! What is suspect in descriptions that are accepted.

use alloc::vec::Vec;
use core::fmt;

use crate::description::FormatDescription;
use crate::error::ParseError;
use crate::sys;

/// What is suspect in a description that is accepted. The names are those that the linter of timefd's
/// repository reports.
#[derive(Debug, Clone, Copy, PartialEq, Eq, PartialOrd, Ord, Hash)]
#[non_exhaustive]
pub enum Warning {
    /// It has no component, so that each moment is written alike.
    NoComponent,
    /// Another language reads a component where it has text.
    OtherLanguage,
    /// A month stands after an hour, and there is no minute.
    MonthForMinute,
    /// A minute stands after a year, and there is no month.
    MinuteForMonth,
    /// It has an hour of twelve, and neither a period nor an hour of 24.
    HourWithoutPeriod,
    /// It has a period, and an hour of 24 but none of twelve.
    PeriodWith24Hours,
    /// It has a fraction of a second, and no second.
    SubsecondWithoutSecond,
    /// It has an ISO week and a calendar year, and no ISO year.
    WeekWithCalendarYear,
    /// It has a month or a day and an ISO year, and no calendar year.
    DateWithIsoYear,
    /// It shows something twice.
    ShownTwice,
    /// It has parts of a date that determine none.
    UndeterminedDate,
    /// A number of varying width touches a digit.
    UnsettledWidth,
    /// A year that may have more than four digits touches a digit.
    UnsettledYear,
    /// A component stands for another. No text is parsed as such a one.
    DeprecatedComponent,
}

impl Warning {
    /// Its name, as `no-component`, which stays the same.
    #[must_use]
    pub fn name(self) -> &'static str {
        match self {
            Self::NoComponent => "no-component",
            Self::OtherLanguage => "other-language",
            Self::MonthForMinute => "month-for-minute",
            Self::MinuteForMonth => "minute-for-month",
            Self::HourWithoutPeriod => "hour-without-period",
            Self::PeriodWith24Hours => "period-with-24-hours",
            Self::SubsecondWithoutSecond => "subsecond-without-second",
            Self::WeekWithCalendarYear => "week-with-calendar-year",
            Self::DateWithIsoYear => "date-with-iso-year",
            Self::ShownTwice => "shown-twice",
            Self::UndeterminedDate => "undetermined-date",
            Self::UnsettledWidth => "unsettled-width",
            Self::UnsettledYear => "unsettled-year",
            Self::DeprecatedComponent => "deprecated-component",
        }
    }

    /// What is suspect, as a sentence about the description.
    ///
    /// ```
    /// assert_eq!(
    ///     timefd::Warning::NoComponent.sentence(),
    ///     "it has no component, so that each moment is written alike"
    /// );
    /// ```
    #[must_use]
    pub fn sentence(self) -> &'static str {
        match self {
            Self::NoComponent => "it has no component, so that each moment is written alike",
            Self::OtherLanguage => "another language reads a component where it has text",
            Self::MonthForMinute => "a month stands after an hour, and there is no minute",
            Self::MinuteForMonth => "a minute stands after a year, and there is no month",
            Self::HourWithoutPeriod => {
                "it has an hour of twelve, and neither a period nor an hour of 24"
            }
            Self::PeriodWith24Hours => "it has a period, and an hour of 24 but none of twelve",
            Self::SubsecondWithoutSecond => "it has a fraction of a second, and no second",
            Self::WeekWithCalendarYear => "it has an ISO week and a calendar year, and no ISO year",
            Self::DateWithIsoYear => {
                "it has a month or a day and an ISO year, and no calendar year"
            }
            Self::ShownTwice => "it shows something twice",
            Self::UndeterminedDate => "it has parts of a date that determine none",
            Self::UnsettledWidth => "a number of varying width touches a digit",
            Self::UnsettledYear => "a year that may have more than four digits touches a digit",
            Self::DeprecatedComponent => "a component stands for another",
        }
    }

    /// The one that the header has this number for.
    pub(crate) fn from_number(number: u32) -> Option<Self> {
        Some(match number {
            1 => Self::NoComponent,
            2 => Self::OtherLanguage,
            3 => Self::MonthForMinute,
            4 => Self::MinuteForMonth,
            5 => Self::HourWithoutPeriod,
            6 => Self::PeriodWith24Hours,
            7 => Self::SubsecondWithoutSecond,
            8 => Self::WeekWithCalendarYear,
            9 => Self::DateWithIsoYear,
            10 => Self::ShownTwice,
            11 => Self::UndeterminedDate,
            12 => Self::UnsettledWidth,
            13 => Self::UnsettledYear,
            14 => Self::DeprecatedComponent,
            _ => return None,
        })
    }
}

impl fmt::Display for Warning {
    fn fmt(&self, f: &mut fmt::Formatter<'_>) -> fmt::Result {
        f.pad(self.name())
    }
}

impl FormatDescription<'_> {
    /// What is suspect in it, each warning once, in the order of [`Warning`]. A program that takes
    /// formats from people shows it to them. The text of the description is parsed again.
    ///
    /// # Errors
    ///
    /// Memory ran out.
    ///
    /// ```
    /// use timefd::{FormatDescription, Language, Version, Warning};
    ///
    /// // A text of strftime is one of version 3 too, and each moment is written as `%Y-%m-%d`.
    /// let wrong = FormatDescription::parse(Version::Three, "%Y-%m-%d")?;
    /// assert_eq!(wrong.warnings()?, [Warning::NoComponent, Warning::OtherLanguage]);
    ///
    /// let right = FormatDescription::parse(Language::Strftime, "%Y-%m-%d")?;
    /// assert_eq!(right.warnings()?, []);
    /// # Ok::<(), timefd::ParseError>(())
    /// ```
    pub fn warnings(&self) -> Result<Vec<Warning>, ParseError> {
        let kind = self.language().number();
        let mut raw = [sys::RawWarning::default(); sys::MOST_WARNINGS];
        let answer = sys::warnings(kind, self.text(), &mut raw);
        if answer.status != sys::ACCEPTED {
            return Err(ParseError::of(kind, self.text(), answer.status));
        }
        let mut warnings = Vec::new();
        warnings.try_reserve_exact(answer.written).map_err(|_| ParseError::OutOfMemory)?;
        let codes = raw[..answer.written].iter().map(|warning| warning.code);
        warnings.extend(codes.map(|code| Warning::from_number(code).expect("one of the header")));
        Ok(warnings)
    }
}
