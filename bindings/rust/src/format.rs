//! Dates and times written by descriptions.

use alloc::string::String;
use alloc::vec::Vec;
use core::error::Error;
use core::fmt;
use core::str::from_utf8;

use crate::buffer;
use crate::component_kind::ComponentKind;
use crate::description::FormatDescription;
use crate::error::ParseError;
use crate::lack::Lack;
use crate::moment::Moment;
use crate::range::{Number, RangeError};
use crate::sys::{self, FormatAnswer, RawMoment};
use crate::tree::Walk;
use crate::version::Language;
use crate::write::WriteError;

/// Writes the moment by a description of a language.
///
/// # Errors
///
/// A number of the moment that is out of its range; the fault of the text; the first component that
/// shows nothing of the moment; or that memory ran out.
///
/// ```
/// use timefd::{Date, FormatError, Lack, Language, Moment, Version};
///
/// let day = Moment::from(Date::new(2026, 11, 23)?);
/// assert_eq!(timefd::format(Version::Three, "[year]-[month]-[day]", &day)?, "2026-11-23");
/// assert_eq!(timefd::format(Language::Strftime, "%d.%m.%Y", &day)?, "23.11.2026");
///
/// let error = timefd::format(Language::Strftime, "%H:%M", &day).unwrap_err();
/// assert!(matches!(error, FormatError::Unshown { lack: Lack::NoTime, .. }));
/// # Ok::<(), Box<dyn std::error::Error>>(())
/// ```
pub fn format(
    language: impl Into<Language>,
    text: &str,
    moment: &Moment,
) -> Result<String, FormatError> {
    Text(language.into(), text).written(moment)
}

/// Why nothing is written.
#[derive(Debug, Clone, PartialEq, Eq)]
#[non_exhaustive]
pub enum FormatError {
    /// The text isn't a description, or memory ran out.
    Parse(ParseError),
    /// A component shows nothing of the moment.
    Unshown {
        /// Which component it is: the first such one.
        component: ComponentKind,
        /// Why it shows nothing.
        lack: Lack,
    },
    /// A number of the moment is out of its range.
    OutOfRange(Number),
}

impl From<RangeError> for FormatError {
    fn from(error: RangeError) -> Self {
        Self::OutOfRange(error.number())
    }
}

impl fmt::Display for FormatError {
    fn fmt(&self, f: &mut fmt::Formatter<'_>) -> fmt::Result {
        match self {
            Self::Parse(error) => error.fmt(f),
            Self::Unshown { component, lack } => {
                write!(f, "the component `{component}` shows nothing: {}", lack.words())
            }
            Self::OutOfRange(number) => f.write_str(number.words()),
        }
    }
}

/// It has no source: the sentence of [`FormatError::Parse`] is that of the error inside.
impl Error for FormatError {}

/// Room on the stack for what most descriptions write.
const SHORT: usize = 128;

/// What the header promises of each text.
const IS_TEXT: &str = "what is written is text";

/// Memory ran out.
pub(crate) const NO_MEMORY: FormatError = FormatError::Parse(ParseError::OutOfMemory);

/// What a moment is written by.
pub(crate) trait Pattern {
    /// The library's answer, which has written all to the buffer if there is room for it.
    fn answer(&self, moment: &RawMoment, buffer: &mut [u8]) -> FormatAnswer;

    /// The error of an answer with another status than those on moments.
    fn refused(&self, status: u32) -> FormatError;

    /// What is written.
    fn written(&self, moment: &Moment) -> Result<String, FormatError> {
        let moment = moment.raw();
        let mut short = [0; SHORT];
        let answer = self.answer(&moment, &mut short);
        match front_of(&answer, &short) {
            Some(bytes) => buffer::string(bytes).ok_or(NO_MEMORY),
            None => Ok(String::from_utf8(self.long(&moment, &answer)?).expect(IS_TEXT)),
        }
    }

    /// Writes the text to an output in one write; it takes no memory if the text is short.
    fn write_text<E>(
        &self,
        moment: &Moment,
        output: impl FnOnce(&str) -> Result<(), E>,
    ) -> Result<(), WriteError<E>> {
        self.write_bytes(moment, |bytes| output(from_utf8(bytes).expect(IS_TEXT)))
    }

    /// The same to an output of bytes, which needs no look at them.
    // It is inlined where it is called, so that no answer is copied: what is rare is a call of its own.
    #[inline(always)]
    fn write_bytes<E>(
        &self,
        moment: &Moment,
        output: impl FnOnce(&[u8]) -> Result<(), E>,
    ) -> Result<(), WriteError<E>> {
        let moment = moment.raw();
        let mut short = [0; SHORT];
        let answer = self.answer(&moment, &mut short);
        match front_of(&answer, &short) {
            Some(bytes) => output(bytes).map_err(WriteError::Output),
            None => output(&self.long(&moment, &answer)?).map_err(WriteError::Output),
        }
    }

    /// The bytes of a text for which there was no room, or why there is none, by the answer. The library is
    /// asked once more, as it has said how much room it wants.
    #[cold]
    #[inline(never)]
    fn long(&self, moment: &RawMoment, answer: &FormatAnswer) -> Result<Vec<u8>, FormatError> {
        let len = self.len(answer)?;
        let mut long = buffer::filled(len, 0).ok_or(NO_MEMORY)?;
        let answer = self.answer(moment, &mut long);
        assert_eq!(self.len(&answer)?, len, "the same is written of the same moment");
        Ok(long)
    }

    /// The length of what is to be written, by an answer, or why nothing is written.
    fn len(&self, answer: &FormatAnswer) -> Result<usize, FormatError> {
        match answer.status {
            sys::ACCEPTED => Ok(answer.value),
            sys::UNSHOWN => {
                let component = ComponentKind::from_number(answer.component);
                Err(FormatError::Unshown {
                    component: component.expect("a component of the header"),
                    lack: Lack::from_number(answer.reason).expect("a reason of the header"),
                })
            }
            sys::OUT_OF_RANGE => {
                let number = Number::from_number(answer.reason).expect("a number of the header");
                Err(FormatError::OutOfRange(number))
            }
            status => Err(self.refused(status)),
        }
    }
}

/// A text in a language.
struct Text<'a>(Language, &'a str);

impl Pattern for Text<'_> {
    fn answer(&self, moment: &RawMoment, buffer: &mut [u8]) -> FormatAnswer {
        sys::format(self.0.number(), self.1, moment, buffer)
    }

    fn refused(&self, status: u32) -> FormatError {
        FormatError::Parse(ParseError::of(self.0.number(), self.1, status))
    }
}

impl Pattern for FormatDescription<'_> {
    #[inline(always)]
    fn answer(&self, moment: &RawMoment, buffer: &mut [u8]) -> FormatAnswer {
        match self.tree.as_taken() {
            Some((nodes, literals)) => {
                sys::format_nodes(nodes, literals.as_bytes(), moment, buffer)
            }
            None => by_copy(self, moment, buffer),
        }
    }

    fn refused(&self, status: u32) -> FormatError {
        match status {
            sys::NO_MEMORY => NO_MEMORY,
            _ => unreachable!("the library wrote these nodes"),
        }
    }
}

/// The library's answer to a copy of the nodes.
#[inline(never)]
fn by_copy(
    description: &FormatDescription<'_>,
    moment: &RawMoment,
    buffer: &mut [u8],
) -> FormatAnswer {
    let write = |nodes: &[_], literals: &[_]| sys::format_nodes(nodes, literals, moment, buffer);
    description.with_nodes(Walk::Written, write).unwrap_or(FormatAnswer::NO_MEMORY)
}

/// What was written, by an answer, to the front of a buffer that had room for it.
#[inline(always)]
fn front_of<'b>(answer: &FormatAnswer, buffer: &'b [u8]) -> Option<&'b [u8]> {
    match answer.status {
        sys::ACCEPTED => buffer.get(..answer.value),
        _ => None,
    }
}
