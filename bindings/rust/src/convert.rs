//! Conversions of texts from one language to another.

use alloc::string::String;
use core::error::Error;
use core::fmt;

use crate::buffer;
use crate::description::FormatDescription;
use crate::error::ParseError;
use crate::sys;
use crate::version::{Language, Version};

/// Rewrites a text of one language in another, with the same items: version 1 in versions 2 and 3,
/// version 2 and strftime in version 3, and version 3 in its normal form, which is the same for all
/// descriptions that mean the same.
///
/// # Errors
///
/// What the language refuses the text for, that memory ran out, or that there is no conversion
/// between these languages.
///
/// ```
/// use timefd::{ConvertError, Language, Version, convert};
///
/// let text = convert(Language::Strftime, Version::Three, "%d.%m.")?;
/// assert_eq!(text, "[day].[month].");
/// let normal = convert(Version::Three, Version::Three, "[ month  repr:numerical ]")?;
/// assert_eq!(normal, "[month]");
/// let error = convert(Version::Three, Version::One, "[day]");
/// assert_eq!(error, Err(ConvertError::NoConversion));
/// # Ok::<(), ConvertError>(())
/// ```
pub fn convert(
    from: impl Into<Language>,
    to: impl Into<Language>,
    text: &str,
) -> Result<String, ConvertError> {
    let (from, to) = (from.into(), to.into());
    let mut short = [0; SHORT];
    let first = converted(from, to, text, &mut short)?;
    if first.value <= SHORT {
        return buffer::string(&short[..first.value]).ok_or(NO_MEMORY);
    }
    // The library is asked once more, since it has said how much room it needs.
    let mut long = buffer::filled(first.value, 0).ok_or(NO_MEMORY)?;
    let second = converted(from, to, text, &mut long)?;
    assert_eq!(second.written, long.len(), "there was room for what the library reported");
    Ok(String::from_utf8(long).expect("a description is text"))
}

/// Rewrites a description of version 1 as one of version 2 that has the same items, once
/// neighbouring literals are joined.
///
/// # Errors
///
/// What version 1 refuses the text for, or that memory ran out.
///
/// ```
/// assert_eq!(timefd::v1_to_v2("[[[day]]"), Ok(r"\[[day]\]".to_owned()));
/// ```
pub fn v1_to_v2(text: &str) -> Result<String, ParseError> {
    convert(Version::One, Version::Two, text).map_err(ConvertError::of_text)
}

/// Rewrites a description of version 2 as one of version 3 that has the same items: in small
/// letters, with those modifiers alone that aren't version 3's default, and the range of each year
/// that has one. Versions 2 and 3 read the answer alike, and writing it again changes nothing.
///
/// # Errors
///
/// What version 2 refuses the text for, or that memory ran out.
///
/// ```
/// assert_eq!(timefd::v2_to_v3("[YEAR]]"), Ok(r"[year range:extended]\]".to_owned()));
/// ```
pub fn v2_to_v3(text: &str) -> Result<String, ParseError> {
    convert(Version::Two, Version::Three, text).map_err(ConvertError::of_text)
}

/// The text of version 3 that has the same items, in its normal form if the description is of
/// version 3. If memory runs out, it is [`fmt::Error`].
///
/// ```
/// use timefd::{FormatDescription, Language, Version};
///
/// let description = FormatDescription::parse(Version::Three, "[ day padding:zero ]/[month]")?;
/// assert_eq!(description.to_string(), "[day]/[month]");
/// let description = FormatDescription::parse(Language::Strftime, "%R")?;
/// assert_eq!(description.to_string(), "[hour]:[minute]");
/// # Ok::<(), timefd::ParseError>(())
/// ```
impl fmt::Display for FormatDescription<'_> {
    fn fmt(&self, f: &mut fmt::Formatter<'_>) -> fmt::Result {
        f.pad(&convert(self.language(), Version::Three, self.text()).map_err(|_| fmt::Error)?)
    }
}

/// Why a text is not converted.
#[derive(Debug, Clone, PartialEq, Eq)]
#[non_exhaustive]
pub enum ConvertError {
    /// The language refuses the text, or memory ran out.
    Parse(ParseError),
    /// There is no conversion from the one language to the other.
    NoConversion,
}

impl ConvertError {
    /// The error of the text, of languages between which there is a conversion.
    fn of_text(self) -> ParseError {
        match self {
            Self::Parse(error) => error,
            Self::NoConversion => unreachable!("each version leads to the next one"),
        }
    }
}

impl fmt::Display for ConvertError {
    fn fmt(&self, f: &mut fmt::Formatter<'_>) -> fmt::Result {
        match self {
            Self::Parse(error) => error.fmt(f),
            Self::NoConversion => f.write_str("there is no conversion between these languages"),
        }
    }
}

/// It has no source: the sentence of [`ConvertError::Parse`] is that of the error inside.
impl Error for ConvertError {}

/// Room on the stack for what most texts become.
const SHORT: usize = 256;

/// Memory ran out.
const NO_MEMORY: ConvertError = ConvertError::Parse(ParseError::OutOfMemory);

/// The library's answer where the text is converted, else the error.
fn converted(
    from: Language,
    to: Language,
    text: &str,
    buffer: &mut [u8],
) -> Result<sys::Answer, ConvertError> {
    let answer = sys::convert(from.number(), to.number(), text, buffer);
    match answer.status {
        sys::ACCEPTED => Ok(answer),
        sys::NO_CONVERSION => Err(ConvertError::NoConversion),
        status => Err(ConvertError::Parse(ParseError::of(from.number(), text, status))),
    }
}
