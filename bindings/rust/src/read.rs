//! Dates and times read by descriptions.

use core::error::Error;
use core::fmt;

use crate::component_kind::ComponentKind;
use crate::description::FormatDescription;
use crate::error::ParseError;
use crate::moment::Moment;
use crate::moment_part::MomentPart;
use crate::sys::{self, DateAnswer, RawNode};
use crate::tree::Walk;
use crate::version::Language;

/// Reads a text by a description of a language. All of it is read, and each component takes as much
/// as it can. What is known of the moment is what was read; with a Unix timestamp all three parts
/// are. It takes 2 KiB of stack for each level that the description is nested.
///
/// # Errors
///
/// The fault of the description; the first part of the text that doesn't match; why what was read is
/// no moment; or that memory ran out.
///
/// ```
/// use timefd::{Date, Language, MomentPart, ReadError, Version};
///
/// let day = timefd::read(Version::Three, "[day]/[month]/[year]", "23/11/2026")?;
/// assert_eq!(day.date, Some(Date::new(2026, 11, 23)?));
/// assert_eq!(timefd::format(Version::Three, "[weekday]", &day)?, "Monday");
///
/// let error = timefd::read(Version::Three, "[day]/[month]/[year]", "23/1x/2026").unwrap_err();
/// assert!(matches!(error, ReadError::Unread { index: 3, .. }));
/// assert_eq!(error.to_string(), "the component `month` was expected at byte 3");
///
/// let error = timefd::read(Language::Strftime, "%A, %F", "Tuesday, 2026-11-23").unwrap_err();
/// assert_eq!(error, ReadError::Contradiction(MomentPart::Weekday));
/// # Ok::<(), Box<dyn std::error::Error>>(())
/// ```
pub fn read(
    language: impl Into<Language>,
    description: &str,
    text: &str,
) -> Result<Moment, ReadError> {
    read_in(language.into(), description, text)
}

impl FormatDescription<'_> {
    /// Reads a text, as [`read`] does. The text of the description isn't parsed again.
    ///
    /// # Errors
    ///
    /// The first part of the text that doesn't match; why what was read is no moment; or that memory
    /// ran out.
    ///
    /// ```
    /// use timefd::{FormatDescription, MomentPart, ReadError, Version};
    ///
    /// let description = FormatDescription::parse(Version::Three, "[year]-[month]")?;
    /// let error = description.read("2026-11").unwrap_err();
    /// assert_eq!(error, ReadError::Missing(MomentPart::Day));
    /// # Ok::<(), timefd::ParseError>(())
    /// ```
    pub fn read(&self, text: &str) -> Result<Moment, ReadError> {
        let read = |nodes: &[RawNode], literals: &[u8]| sys::read_nodes(nodes, literals, text);
        let answer = self.with_nodes(Walk::All, read).ok_or(NO_MEMORY)?;
        moment_of(&answer).unwrap_or_else(|status| match status {
            sys::NO_MEMORY => Err(NO_MEMORY),
            _ => unreachable!("the library wrote these nodes"),
        })
    }
}

/// Memory ran out.
const NO_MEMORY: ReadError = ReadError::Parse(ParseError::OutOfMemory);

/// Why a text is not read.
#[derive(Debug, Clone, PartialEq, Eq)]
#[non_exhaustive]
pub enum ReadError {
    /// The text of the description isn't a description, or memory ran out.
    Parse(ParseError),
    /// A part of the text doesn't match. It is the first one.
    Unread {
        /// Where it begins: how many bytes of the text are before it.
        index: usize,
        /// Why it doesn't match.
        why: Unread,
    },
    /// The whole text was read, and this has to be known too.
    Missing(MomentPart),
    /// The whole text was read, and no moment has all that was read: this contradicts others.
    Contradiction(MomentPart),
}

/// Why a part of a text doesn't match.
#[derive(Debug, Clone, Copy, PartialEq, Eq, Hash)]
#[non_exhaustive]
pub enum Unread {
    /// The component can't read what comes next.
    ReadsNothing {
        /// Which component it is.
        component: ComponentKind,
    },
    /// The component was read before, and has another value here.
    ReadsAnotherValue {
        /// Which component it is.
        component: ComponentKind,
    },
    /// The text doesn't go on with the literal text of the description.
    AnotherText,
    /// The description has ended, and text follows.
    TextFollows,
}

impl Unread {
    /// The one that the header has this number for, with the component of this number.
    pub(crate) fn from_number(number: u32, component: u32) -> Option<Self> {
        let component = || ComponentKind::from_number(component);
        Some(match number {
            1 => Self::ReadsNothing { component: component()? },
            2 => Self::ReadsAnotherValue { component: component()? },
            3 => Self::AnotherText,
            4 => Self::TextFollows,
            _ => return None,
        })
    }
}

impl fmt::Display for Unread {
    fn fmt(&self, f: &mut fmt::Formatter<'_>) -> fmt::Result {
        match *self {
            Self::ReadsNothing { component } => {
                write!(f, "the component `{component}` was expected")
            }
            Self::ReadsAnotherValue { component } => {
                write!(f, "the component `{component}` has a different value")
            }
            Self::AnotherText => f.write_str("another text was expected"),
            Self::TextFollows => f.write_str("nothing may follow"),
        }
    }
}

impl fmt::Display for ReadError {
    fn fmt(&self, f: &mut fmt::Formatter<'_>) -> fmt::Result {
        match self {
            Self::Parse(error) => error.fmt(f),
            Self::Unread { index, why } => write!(f, "{why} at byte {index}"),
            Self::Missing(part) => write!(f, "the {} was not read", part.words()),
            Self::Contradiction(part) => {
                write!(f, "the {} disagrees with what else was read", part.words())
            }
        }
    }
}

/// It has no source: the sentence of [`ReadError::Parse`] is that of the error inside.
impl Error for ReadError {}

/// Reads a text by a description of a language.
fn read_in(language: Language, description: &str, text: &str) -> Result<Moment, ReadError> {
    let kind = language.number();
    let answer = sys::read_date(kind, description, text);
    moment_of(&answer)
        .unwrap_or_else(|status| Err(ReadError::Parse(ParseError::of(kind, description, status))))
}

/// What was read, or why nothing was. The error is a status that says nothing of the text.
fn moment_of(answer: &DateAnswer) -> Result<Result<Moment, ReadError>, u32> {
    match answer.status {
        sys::ACCEPTED => Ok(Ok(Moment::of_raw(&answer.moment))),
        sys::UNREAD => Ok(Err(unread(answer))),
        sys::MISSING => Ok(Err(ReadError::Missing(part(answer)))),
        sys::CONTRADICTION => Ok(Err(ReadError::Contradiction(part(answer)))),
        status => Err(status),
    }
}

fn unread(answer: &DateAnswer) -> ReadError {
    let why = Unread::from_number(answer.reason, answer.component).expect("a reason of the header");
    ReadError::Unread { index: answer.value, why }
}

fn part(answer: &DateAnswer) -> MomentPart {
    MomentPart::from_number(answer.part).expect("a part of the header")
}
