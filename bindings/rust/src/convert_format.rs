//! Formats of other languages as texts of version 3.

use alloc::string::String;
use core::error::Error;
use core::fmt;

use crate::buffer;
use crate::dialect::Dialect;
use crate::reason::Reason;
use crate::sys;

/// Converts a format of another language to the text of version 3 that writes the same.
///
/// # Errors
///
/// The first part of the format, from the left, that has no text of version 3, or that memory ran
/// out.
///
/// ```
/// use timefd::{Dialect, Reason, convert_format};
///
/// let converted = convert_format(Dialect::Python, "%d.%m.%Y")?;
/// assert_eq!(converted.text, "[day].[month].[year]");
/// assert_eq!(converted.first_year, 1000); // Python's `%Y` fills no year with zeros
///
/// let error = convert_format(Dialect::Java, "yyyy QQ").unwrap_err();
/// let refusal = error.refusal().expect("there is memory");
/// assert_eq!((refusal.reason, refusal.index), (Reason::Quarter, 5));
/// assert_eq!(refusal.reason.sentence(), "it writes a quarter, and version 3 has none");
/// assert_eq!(refusal.reason.cure(), "Write the month, or count the quarter in a program.");
/// # Ok::<(), timefd::ConvertFormatError>(())
/// ```
pub fn convert_format(
    dialect: Dialect,
    format: &str,
) -> Result<ConvertedFormat, ConvertFormatError> {
    let mut short = [0; SHORT];
    let first = converted(dialect, format, &mut short)?;
    let text = if first.value <= SHORT {
        buffer::string(&short[..first.value]).ok_or(ConvertFormatError::OutOfMemory)?
    } else {
        long_text(dialect, format, first.value)?
    };
    Ok(ConvertedFormat { text, first_year: first.first_year, whole_minutes: first.whole_minutes })
}

/// A format as a text of version 3, and for which moments it writes the same: those up to the year
/// 9999 whose year, and whose ISO year, isn't before the first year here.
#[derive(Debug, Clone, PartialEq, Eq)]
#[non_exhaustive]
pub struct ConvertedFormat {
    /// The text of version 3.
    pub text: String,
    /// The first year.
    pub first_year: u32,
    /// Whether the offset may have no seconds.
    pub whole_minutes: bool,
}

/// Why a format is not converted. It displays as a sentence, with what to do.
#[derive(Debug, Clone, Copy, PartialEq, Eq)]
#[non_exhaustive]
pub enum ConvertFormatError {
    /// A part of it has no text of version 3.
    Refused(Refusal),
    /// Memory ran out.
    OutOfMemory,
}

/// The part of a format that has no text of version 3.
#[derive(Debug, Clone, Copy, PartialEq, Eq)]
#[non_exhaustive]
pub struct Refusal {
    /// Why it has none.
    pub reason: Reason,
    /// Where it begins in the format: an index in bytes.
    pub index: usize,
}

impl ConvertFormatError {
    /// The part that has no text of version 3. `None` if memory ran out.
    #[must_use]
    pub fn refusal(&self) -> Option<Refusal> {
        match self {
            Self::Refused(refusal) => Some(*refusal),
            Self::OutOfMemory => None,
        }
    }
}

impl fmt::Display for ConvertFormatError {
    fn fmt(&self, f: &mut fmt::Formatter<'_>) -> fmt::Result {
        match self {
            Self::Refused(refusal) => refusal.fmt(f),
            Self::OutOfMemory => f.write_str("out of memory"),
        }
    }
}

impl fmt::Display for Refusal {
    fn fmt(&self, f: &mut fmt::Formatter<'_>) -> fmt::Result {
        let (index, reason) = (self.index, self.reason);
        write!(f, "at byte {index} of the format: {}. {}", reason.sentence(), reason.cure())
    }
}

/// It has no source: the sentence of [`ConvertFormatError::Refused`] is that of the error inside.
impl Error for ConvertFormatError {}

/// Room on the stack for what most formats become.
const SHORT: usize = 256;

/// The text of a format, once the library has said how much room it needs.
fn long_text(dialect: Dialect, format: &str, len: usize) -> Result<String, ConvertFormatError> {
    let mut long = buffer::filled(len, 0).ok_or(ConvertFormatError::OutOfMemory)?;
    let answer = converted(dialect, format, &mut long)?;
    assert_eq!(answer.written, long.len(), "there was room for what the library reported");
    Ok(String::from_utf8(long).expect("a description is text"))
}

/// The library's answer where the format is converted, else the error.
fn converted(
    dialect: Dialect,
    format: &str,
    buffer: &mut [u8],
) -> Result<sys::ConvertAnswer, ConvertFormatError> {
    let answer = sys::convert_format(dialect.number(), format, buffer);
    match answer.status {
        sys::ACCEPTED => Ok(answer),
        sys::REFUSED => {
            let reason = Reason::from_number(answer.reason).expect("the header has its number");
            Err(ConvertFormatError::Refused(Refusal { reason, index: answer.value }))
        }
        sys::NO_MEMORY => Err(ConvertFormatError::OutOfMemory),
        status => unreachable!("the status {status} of a format in UTF-8"),
    }
}
