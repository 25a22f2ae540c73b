//! Why a text isn't a description, and where.

use alloc::boxed::Box;
use core::error::Error;
use core::fmt;
use core::ops::Range;

use crate::buffer;
use crate::sys;

/// Which fault a text has, whatever word of the text it is about. The names are those that the
/// linter of timefd's repository writes.
#[derive(Debug, Clone, Copy, PartialEq, Eq, PartialOrd, Ord, Hash)]
#[non_exhaustive]
pub enum FaultKind {
    /// A bracket has no end.
    UnclosedBracket,
    /// A bracket has the name of no component, or no letter of strftime is this one.
    UnknownName,
    /// A word is no modifier of its component, or no key and value.
    InvalidModifier,
    /// A bracket has no name.
    MissingName,
    /// A component lacks a modifier that it needs.
    MissingModifier,
    /// What follows a backslash, or a percent sign of strftime, is nothing that it takes.
    InvalidEscape,
    /// A `]` stands alone, and version 3 needs a backslash before it.
    UnescapedBracket,
    /// A nested description touches the word before it.
    MissingSpace,
    /// `optional` has no nested description.
    MissingDescription,
    /// `first` has none.
    MissingAlternative,
    /// A nested description stands inside too many.
    NestedTooDeep,
    /// `optional` has more than one nested description.
    SeveralDescriptions,
    /// `optional` stands in a version that lacks it.
    OptionalItem,
    /// `first` stands in a version that lacks it.
    FirstItem,
    /// A flag of strftime that is not read.
    UnsupportedFlag,
    /// A letter of strftime that is not read.
    UnsupportedLetter,
    /// A component has a nested description, but takes none.
    NestedInComponent,
    /// A bracket has a key twice, and version 3 takes it once.
    DuplicateModifier,
    /// A key stands beside a value of another key that excludes it.
    RefusedModifier,
}

impl FaultKind {
    /// Its name, like `unclosed-bracket`, which stays the same if the sentence changes.
    #[must_use]
    pub fn name(self) -> &'static str {
        match self {
            Self::UnclosedBracket => "unclosed-bracket",
            Self::UnknownName => "unknown-name",
            Self::InvalidModifier => "invalid-modifier",
            Self::MissingName => "missing-name",
            Self::MissingModifier => "missing-modifier",
            Self::InvalidEscape => "invalid-escape",
            Self::UnescapedBracket => "unescaped-bracket",
            Self::MissingSpace => "missing-space",
            Self::MissingDescription => "missing-description",
            Self::MissingAlternative => "missing-alternative",
            Self::NestedTooDeep => "nested-too-deep",
            Self::SeveralDescriptions => "several-descriptions",
            Self::OptionalItem => "optional-item",
            Self::FirstItem => "first-item",
            Self::UnsupportedFlag => "unsupported-flag",
            Self::UnsupportedLetter => "unsupported-letter",
            Self::NestedInComponent => "nested-in-component",
            Self::DuplicateModifier => "duplicate-modifier",
            Self::RefusedModifier => "refused-modifier",
        }
    }

    /// The one that the header has this number for.
    pub(crate) fn from_number(number: u32) -> Option<Self> {
        Some(match number {
            1 => Self::UnclosedBracket,
            2 => Self::UnknownName,
            3 => Self::InvalidModifier,
            4 => Self::MissingName,
            5 => Self::MissingModifier,
            6 => Self::InvalidEscape,
            7 => Self::UnescapedBracket,
            8 => Self::MissingSpace,
            9 => Self::MissingDescription,
            10 => Self::MissingAlternative,
            11 => Self::NestedTooDeep,
            12 => Self::SeveralDescriptions,
            13 => Self::OptionalItem,
            14 => Self::FirstItem,
            15 => Self::UnsupportedFlag,
            16 => Self::UnsupportedLetter,
            17 => Self::NestedInComponent,
            18 => Self::DuplicateModifier,
            19 => Self::RefusedModifier,
            _ => return None,
        })
    }
}

impl fmt::Display for FaultKind {
    fn fmt(&self, f: &mut fmt::Formatter<'_>) -> fmt::Result {
        f.write_str(self.name())
    }
}

/// The fault that the rules assign to a text. It displays as a sentence.
///
/// ```
/// use timefd::{FaultKind, FormatDescription, ParseError, Version};
///
/// let error = FormatDescription::parse(Version::Three, "[year]-[mnth]").unwrap_err();
/// let ParseError::Invalid(fault) = error else { panic!("memory ran out") };
/// assert_eq!(fault.kind(), FaultKind::UnknownName);
/// assert_eq!(fault.name(), "unknown-name");
/// assert_eq!(fault.span(), 8..12); // `mnth`
/// assert_eq!(fault.nearest(), Some("month"));
/// assert_eq!(fault.to_string(), "invalid component name `mnth` at byte index 8");
/// ```
#[derive(Debug, Clone, PartialEq, Eq)]
pub struct Fault {
    kind: FaultKind,
    start: usize,
    end: usize,
    /// The sentence, and after it the nearest word.
    words: Box<str>,
    sentence_len: usize,
}

impl Fault {
    /// Which fault it is.
    #[must_use]
    pub fn kind(&self) -> FaultKind {
        self.kind
    }

    /// The name of its kind.
    #[must_use]
    pub fn name(&self) -> &'static str {
        self.kind.name()
    }

    /// The index of the byte at fault: how many bytes of the text are before it. It is at most the
    /// text's length, and is between two characters, so that both parts of the text can be sliced.
    #[must_use]
    pub fn index(&self) -> usize {
        self.start
    }

    /// The bytes at fault: from the index on, up to the end of the name, key or value there, or else
    /// of the one character there. It is empty at the end of the text.
    #[must_use]
    pub fn span(&self) -> Range<usize> {
        self.start..self.end
    }

    /// The nearest of the names, keys or values that are allowed there, if one is near.
    #[must_use]
    pub fn nearest(&self) -> Option<&str> {
        Some(&self.words[self.sentence_len..]).filter(|word| !word.is_empty())
    }

    /// What is wrong there. The library writes it, and it is proved to be the sentence of the fault
    /// that the rules assign to the text.
    #[must_use]
    pub fn sentence(&self) -> &str {
        &self.words[..self.sentence_len]
    }

    /// The fault of a text that the language of a number refuses. `None` if there is no memory
    /// for what is reported of it.
    pub(crate) fn of(kind: u32, text: &str) -> Option<Self> {
        let (mut sentence, mut word) = ([0; SHORT], [0; LONGEST_WORD]);
        let reported = sys::diagnose(kind, text, &mut sentence, &mut word);
        let fault = reported.fault;
        if fault.out_of_memory {
            return None;
        }
        let sentence_len = reported.answer.sentence_len;
        let word = &word[..fault.nearest_written];
        let mut words = buffer::filled(sentence_len + word.len(), 0)?;
        let (front, back) = words.split_at_mut(sentence_len);
        back.copy_from_slice(word);
        if sentence_len <= SHORT {
            front.copy_from_slice(&sentence[..sentence_len]);
        } else {
            let second = sys::check(kind, text, front);
            assert_eq!(
                second.written, sentence_len,
                "there was room for what the library reported"
            );
        }
        Some(Self {
            kind: FaultKind::from_number(fault.code).expect("a code of the header"),
            start: fault.start,
            end: fault.end,
            words: buffer::boxed_text(words),
            sentence_len,
        })
    }
}

/// Room on the stack for each sentence that names nothing long, and for the longest word that is
/// allowed anywhere.
const SHORT: usize = 128;
const LONGEST_WORD: usize = 16;

impl fmt::Display for Fault {
    fn fmt(&self, f: &mut fmt::Formatter<'_>) -> fmt::Result {
        f.write_str(self.sentence())
    }
}

impl Error for Fault {}
