//! Why a moment is no value of another type.

use core::error::Error;
use core::fmt;

use crate::lack::Lack;
use crate::range::{Number, RangeError};

/// Why a moment, a date or a time is no value of another type.
#[derive(Debug, Clone, Copy, PartialEq, Eq, Hash)]
#[non_exhaustive]
pub enum ValueError {
    /// The moment lacks what the other type has.
    Missing(Lack),
    /// A number of the moment is out of its range.
    OutOfRange(Number),
    /// The moment has an offset from UTC, which the other type would lose.
    OffsetLost,
    /// The other type has no such value.
    Unrepresentable,
}

/// The error of a value that another library refuses, for whatever reason.
#[cfg(any(feature = "time", feature = "jiff"))]
pub(crate) fn unrepresentable<E>(_: E) -> ValueError {
    ValueError::Unrepresentable
}

impl From<Lack> for ValueError {
    fn from(lack: Lack) -> Self {
        Self::Missing(lack)
    }
}

impl From<RangeError> for ValueError {
    fn from(error: RangeError) -> Self {
        Self::OutOfRange(error.number())
    }
}

impl fmt::Display for ValueError {
    fn fmt(&self, f: &mut fmt::Formatter<'_>) -> fmt::Result {
        f.write_str(match self {
            Self::Missing(lack) => lack.words(),
            Self::OutOfRange(number) => number.words(),
            Self::OffsetLost => "the other type has no offset, and the moment has one",
            Self::Unrepresentable => "the other type has no such date, time or offset",
        })
    }
}

impl Error for ValueError {}
