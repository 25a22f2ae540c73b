//! Why a component shows nothing of a moment.

/// Why a component shows nothing of a moment.
#[derive(Debug, Clone, Copy, PartialEq, Eq, Hash)]
#[non_exhaustive]
pub enum Lack {
    /// The moment has no date.
    NoDate,
    /// The moment has no time of day.
    NoTime,
    /// The moment has no offset from UTC.
    NoOffset,
    /// The component shows no year of so many digits.
    YearTooLong,
    /// The instant is in no year from -999,999 to 999,999 of UTC.
    InstantOutOfRange,
}

impl Lack {
    /// The one that the header has this number for.
    pub(crate) fn from_number(number: u32) -> Option<Self> {
        Some(match number {
            1 => Self::NoDate,
            2 => Self::NoTime,
            3 => Self::NoOffset,
            4 => Self::YearTooLong,
            5 => Self::InstantOutOfRange,
            _ => return None,
        })
    }

    /// The reason as a part of a sentence, in the words of the library.
    pub(crate) fn words(self) -> &'static str {
        match self {
            Self::NoDate => "the value has no date",
            Self::NoTime => "the value has no time of day",
            Self::NoOffset => "the value has no offset from UTC",
            Self::YearTooLong => "the year has too many digits",
            Self::InstantOutOfRange => "the instant is in no year from -999999 to 999999 of UTC",
        }
    }
}
