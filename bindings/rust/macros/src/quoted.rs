//! The text of a literal, and where each byte of it stands in the source.

use alloc::string::{String, ToString as _};
use alloc::vec::Vec;
use core::ops::Range;
use proc_macro::{Literal, Span};

use crate::refusal::Refusal;

/// A string literal that was read.
pub(crate) struct Quoted {
    pub(crate) literal: Literal,
    pub(crate) text: String,
    /// Of each byte of the text, and of its end, where it stands in the literal.
    places: Vec<usize>,
}

impl Quoted {
    /// Reads a literal: it is a string, raw or not.
    pub(crate) fn of(literal: Literal) -> Result<Self, Refusal> {
        let source = literal.to_string();
        let mut quoted = Self { literal, text: String::new(), places: Vec::new() };
        let marks =
            source.strip_prefix('r').map(|raw| raw.len() - raw.trim_start_matches('#').len());
        let inner = match marks {
            Some(marks) => marks + 2..source.len().saturating_sub(marks + 1),
            None => 1..source.len().saturating_sub(1),
        };
        let quote = &source[..inner.start.min(source.len())];
        if !quote.ends_with('"') || inner.end < inner.start {
            return Err(Refusal::new(quoted.span(), "expected a string literal, as \"[year]\""));
        }
        quoted.read(&source, inner, marks.is_none());
        Ok(quoted)
    }

    /// Where the literal stands in the program.
    pub(crate) fn span(&self) -> Span {
        self.literal.span()
    }

    /// Where bytes of the text are in the program: inside the literal, if the compiler knows that.
    #[cfg(timefd_subspan)]
    pub(crate) fn span_of(&self, bytes: Range<usize>) -> Option<Span> {
        let end =
            if bytes.is_empty() { self.places[bytes.end] + 1 } else { self.places[bytes.end] };
        self.literal.subspan(self.places[bytes.start]..end)
    }

    #[cfg(not(timefd_subspan))]
    pub(crate) fn span_of(&self, _bytes: Range<usize>) -> Option<Span> {
        None
    }

    /// Reads what stands between the quotes. The compiler has seen that it is well formed.
    fn read(&mut self, source: &str, inner: Range<usize>, has_escapes: bool) {
        let mut rest = &source[inner.clone()];
        while let Some(character) = rest.chars().next() {
            let place = inner.end - rest.len();
            rest = &rest[character.len_utf8()..];
            match character {
                '\\' if has_escapes => rest = self.read_escape(rest, place),
                // Rust takes these two for a newline.
                '\r' if rest.starts_with('\n') => {}
                character => self.push(character, place),
            }
        }
        self.places.push(inner.end);
    }

    /// Reads what a backslash stands before, and answers what is after that.
    fn read_escape<'s>(&mut self, rest: &'s str, place: usize) -> &'s str {
        let (kind, after) = rest.split_at(rest.chars().next().map_or(0, char::len_utf8));
        let (character, after) = match kind {
            "n" => ('\n', after),
            "r" => ('\r', after),
            "t" => ('\t', after),
            "0" => ('\0', after),
            "x" => of_digits(&after[..2], &after[2..]),
            "u" => {
                let (digits, after) = after.split_once('}').unwrap_or((after, ""));
                of_digits(digits.trim_start_matches('{'), after)
            }
            // The line goes on after white space.
            "\n" | "\r" => return after.trim_start_matches([' ', '\t', '\n', '\r']),
            _ => (kind.chars().next().unwrap_or('\\'), after),
        };
        self.push(character, place);
        after
    }

    fn push(&mut self, character: char, place: usize) {
        self.text.push(character);
        self.places.resize(self.text.len(), place);
    }
}

/// The character of a number, and what is after it.
fn of_digits<'s>(digits: &str, after: &'s str) -> (char, &'s str) {
    let number = u32::from_str_radix(&digits.replace('_', ""), 16).ok();
    (number.and_then(char::from_u32).unwrap_or(char::REPLACEMENT_CHARACTER), after)
}
