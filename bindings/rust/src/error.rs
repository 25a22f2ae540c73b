//! Why a text is not read.

use core::error::Error;
use core::fmt;

use crate::fault::Fault;
use crate::sys;

/// Why a text is not read. It displays as a sentence.
///
/// ```
/// use timefd::{FormatDescription, Version};
///
/// let error = FormatDescription::parse(Version::Three, "[year]-[mnth]").unwrap_err();
/// assert_eq!(error.index(), Some(8));
/// assert_eq!(error.to_string(), "invalid component name `mnth` at byte index 8");
/// ```
#[derive(Debug, Clone, PartialEq, Eq)]
#[non_exhaustive]
pub enum ParseError {
    /// The text isn't a description.
    Invalid(Fault),
    /// Memory ran out: for what a description holds, or for what is reported of a fault, which is
    /// copied. The library itself finds a fault without memory.
    OutOfMemory,
}

impl ParseError {
    /// The fault of the text. `None` if memory ran out.
    #[must_use]
    pub fn fault(&self) -> Option<&Fault> {
        match self {
            Self::Invalid(fault) => Some(fault),
            Self::OutOfMemory => None,
        }
    }

    /// The index of the byte at fault: how many bytes of the text are before it. `None` where
    /// memory ran out.
    pub fn index(&self) -> Option<usize> {
        self.fault().map(Fault::index)
    }

    /// What a text is not read for, from the status of a call that doesn't accept it in the
    /// language of a number.
    pub(crate) fn of(kind: u32, text: &str, status: u32) -> Self {
        match status {
            sys::REFUSED => Fault::of(kind, text).map_or(Self::OutOfMemory, Self::Invalid),
            sys::NO_MEMORY => Self::OutOfMemory,
            _ => unreachable!("the status {status} of a text in UTF-8"),
        }
    }
}

impl fmt::Display for ParseError {
    fn fmt(&self, f: &mut fmt::Formatter<'_>) -> fmt::Result {
        match self {
            Self::Invalid(fault) => fault.fmt(f),
            Self::OutOfMemory => f.write_str("out of memory"),
        }
    }
}

/// It has no source: the sentence of [`ParseError::Invalid`] is that of its fault.
impl Error for ParseError {}
