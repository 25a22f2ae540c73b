//! Languages and libraries whose formats are converted.

use core::error::Error;
use core::fmt;
use core::str::FromStr;

/// A language or a library whose formats are converted to version 3. As a text it is its name in
/// small letters, as for the option `--language` of `timefd_format`.
///
/// ```
/// use timefd::Dialect;
///
/// assert_eq!("java".parse(), Ok(Dialect::Java));
/// assert_eq!(Dialect::Python.to_string(), "python");
/// ```
#[derive(Debug, Clone, Copy, PartialEq, Eq, Hash)]
#[non_exhaustive]
pub enum Dialect {
    /// `strftime` of Python's `datetime`.
    Python,
    /// `strftime` of C, as glibc has it.
    C,
    /// `date` of GNU coreutils.
    Gnu,
    /// `format` of chrono, for Rust.
    Chrono,
    /// `strftime` of jiff, for Rust.
    Jiff,
    /// `strftime` of Ruby's `Time`.
    Ruby,
    /// Patterns of Java's `DateTimeFormatter`.
    Java,
    /// Layouts of Go's `time`.
    Go,
    /// Tokens of moment.js, for JavaScript.
    Moment,
}

impl Dialect {
    /// All of them, in the order of their numbers.
    pub const ALL: [Self; 9] = [
        Self::Python,
        Self::C,
        Self::Gnu,
        Self::Chrono,
        Self::Jiff,
        Self::Ruby,
        Self::Java,
        Self::Go,
        Self::Moment,
    ];

    /// Its name, as `python`.
    #[must_use]
    pub fn name(self) -> &'static str {
        match self {
            Self::Python => "python",
            Self::C => "c",
            Self::Gnu => "gnu",
            Self::Chrono => "chrono",
            Self::Jiff => "jiff",
            Self::Ruby => "ruby",
            Self::Java => "java",
            Self::Go => "go",
            Self::Moment => "moment",
        }
    }

    /// The number that the library knows it by.
    pub(crate) fn number(self) -> u32 {
        match self {
            Self::Python => 101,
            Self::C => 102,
            Self::Gnu => 103,
            Self::Chrono => 104,
            Self::Jiff => 105,
            Self::Ruby => 106,
            Self::Java => 107,
            Self::Go => 108,
            Self::Moment => 109,
        }
    }
}

impl FromStr for Dialect {
    type Err = UnknownDialect;

    fn from_str(text: &str) -> Result<Self, UnknownDialect> {
        Self::ALL.into_iter().find(|it| it.name() == text).ok_or(UnknownDialect)
    }
}

impl fmt::Display for Dialect {
    fn fmt(&self, f: &mut fmt::Formatter<'_>) -> fmt::Result {
        f.pad(self.name())
    }
}

/// A text is the name of no dialect.
#[derive(Debug, Clone, Copy, PartialEq, Eq)]
pub struct UnknownDialect;

impl fmt::Display for UnknownDialect {
    fn fmt(&self, f: &mut fmt::Formatter<'_>) -> fmt::Result {
        f.write_str(
            "unknown dialect: expected python, c, gnu, chrono, jiff, ruby, java, go or moment",
        )
    }
}

impl Error for UnknownDialect {}
