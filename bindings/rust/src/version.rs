//! The languages of texts: the versions of format descriptions, and strftime.

use core::error::Error;
use core::fmt;
use core::str::FromStr;

/// A version of the format descriptions of `time`.
///
/// ```
/// use timefd::Version;
///
/// assert_eq!("3".parse(), Ok(Version::Three));
/// assert_eq!(Version::try_from(1), Ok(Version::One));
/// let error = Version::try_from(4).unwrap_err();
/// assert_eq!(error.to_string(), "unknown version: expected 1, 2 or 3");
/// ```
#[derive(Debug, Clone, Copy, PartialEq, Eq, PartialOrd, Ord, Hash)]
#[non_exhaustive]
pub enum Version {
    /// Brackets are escaped as `[[`, names and values are read without regard to case.
    One,
    /// Brackets are escaped by `\`, names and values are read without regard to case.
    Two,
    /// Brackets are escaped by `\`, case counts, and descriptions can be optional and have
    /// alternatives.
    Three,
}

impl Version {
    /// The number that the library knows the version by.
    pub(crate) fn number(self) -> u32 {
        u8::from(self).into()
    }
}

impl From<Version> for u8 {
    fn from(version: Version) -> Self {
        match version {
            Version::One => 1,
            Version::Two => 2,
            Version::Three => 3,
        }
    }
}

impl TryFrom<u8> for Version {
    type Error = UnknownVersion;

    fn try_from(number: u8) -> Result<Self, UnknownVersion> {
        match number {
            1 => Ok(Self::One),
            2 => Ok(Self::Two),
            3 => Ok(Self::Three),
            _ => Err(UnknownVersion),
        }
    }
}

impl FromStr for Version {
    type Err = UnknownVersion;

    fn from_str(text: &str) -> Result<Self, UnknownVersion> {
        match text {
            "1" => Ok(Self::One),
            "2" => Ok(Self::Two),
            "3" => Ok(Self::Three),
            _ => Err(UnknownVersion),
        }
    }
}

impl fmt::Display for Version {
    fn fmt(&self, f: &mut fmt::Formatter<'_>) -> fmt::Result {
        self.number().fmt(f)
    }
}

/// A number or a text is that of no version.
#[derive(Debug, Clone, Copy, PartialEq, Eq)]
pub struct UnknownVersion;

impl fmt::Display for UnknownVersion {
    fn fmt(&self, f: &mut fmt::Formatter<'_>) -> fmt::Result {
        f.write_str("unknown version: expected 1, 2 or 3")
    }
}

impl Error for UnknownVersion {}

/// A language of texts. As a text it is `1`, `2`, `3` or `strftime`, as for the option `--language`
/// of timefd's programs. Each call that takes a language takes a [`Version`] too.
///
/// ```
/// use timefd::{Language, Version};
///
/// let language: Language = "strftime".parse()?;
/// assert_eq!(timefd::read(language, "%d.%m.%Y", "23.11.2026")?.to_string(), "2026-11-23");
/// assert_eq!(Language::from(Version::Three).to_string(), "3");
///
/// let error = "chrono".parse::<Language>().unwrap_err();
/// assert_eq!(error.to_string(), "unknown language: expected 1, 2, 3 or strftime");
/// # Ok::<(), Box<dyn std::error::Error>>(())
/// ```
#[derive(Debug, Clone, Copy, PartialEq, Eq, PartialOrd, Ord, Hash)]
#[non_exhaustive]
pub enum Language {
    /// Format descriptions of a version.
    Version(Version),
    /// Conversion specifications of strftime.
    Strftime,
}

/// What strftime is called.
const STRFTIME: &str = "strftime";

impl Language {
    /// The number that the library knows the language by.
    pub(crate) fn number(self) -> u32 {
        match self {
            Self::Version(version) => version.number(),
            Self::Strftime => 4,
        }
    }
}

impl From<Version> for Language {
    fn from(version: Version) -> Self {
        Self::Version(version)
    }
}

impl FromStr for Language {
    type Err = UnknownLanguage;

    fn from_str(text: &str) -> Result<Self, UnknownLanguage> {
        match text {
            STRFTIME => Ok(Self::Strftime),
            _ => text.parse().map(Self::Version).map_err(|UnknownVersion| UnknownLanguage),
        }
    }
}

impl fmt::Display for Language {
    fn fmt(&self, f: &mut fmt::Formatter<'_>) -> fmt::Result {
        match self {
            Self::Version(version) => version.fmt(f),
            Self::Strftime => f.pad(STRFTIME),
        }
    }
}

/// A text is that of no language.
#[derive(Debug, Clone, Copy, PartialEq, Eq)]
pub struct UnknownLanguage;

impl fmt::Display for UnknownLanguage {
    fn fmt(&self, f: &mut fmt::Formatter<'_>) -> fmt::Result {
        f.write_str("unknown language: expected 1, 2, 3 or strftime")
    }
}

impl Error for UnknownLanguage {}
