//! The literals of a description, borrowed from the text that it was read from.

use alloc::string::String;
use core::str::from_utf8;

/// Each text of one ASCII character. It has those that letters of strftime stand for, which no text
/// need hold.
pub(crate) const ASCII: &str = {
    const BYTES: [u8; 128] = {
        let mut bytes = [0; 128];
        let mut at = 0;
        while at < bytes.len() {
            bytes[at] = at as u8;
            at += 1;
        }
        bytes
    };
    match from_utf8(&BYTES) {
        Ok(text) => text,
        Err(_) => panic!("ASCII is UTF-8"),
    }
};

/// The literal of so many bytes that has this place among `ASCII` and, after it, the text: in `ASCII` where it has
/// one byte, or else in the text.
pub(crate) fn borrowed(text: &str, place: usize, count: usize) -> &str {
    if count == 1 {
        return &ASCII[place..=place];
    }
    &text[place - ASCII.len()..place - ASCII.len() + count]
}

/// Adds a literal as version 3 writes it.
pub(crate) fn push_escaped(text: &mut String, literal: &str) {
    for character in literal.chars() {
        if matches!(character, '[' | ']' | '\\') {
            text.push('\\');
        }
        text.push(character);
    }
}

/// The bytes of literals as the library writes them, and the text that has them too.
pub(crate) struct Literals<'a, 'b> {
    pub(crate) text: &'a str,
    bytes: &'b [u8],
    /// Where the literal ends that was found in the text last.
    at: usize,
}

impl<'a, 'b> Literals<'a, 'b> {
    pub(crate) fn new(text: &'a str, bytes: &'b [u8]) -> Self {
        Self { text, bytes, at: 0 }
    }

    /// Whether all whose positions were asked for are borrowed from `ASCII`.
    pub(crate) fn are_ascii(&self) -> bool {
        self.at == 0
    }

    /// By which place so many bytes from an index among the library's are [`borrowed`]. If there are several, the text
    /// holds them after the literal before. `None` if it doesn't, which the library never answers.
    #[inline]
    pub(crate) fn place(&mut self, start: usize, count: usize) -> Option<usize> {
        if count == 1 {
            let byte = *self.bytes.get(start)?;
            return byte.is_ascii().then_some(usize::from(byte));
        }
        let literal = self.bytes.get(start..start.checked_add(count)?)?;
        let place = find(self.text, self.at, literal)?;
        self.at = place + count;
        Some(ASCII.len() + place)
    }
}

/// The longest literal that is sought by its first byte.
const SHORT: usize = 16;

/// Where some bytes stand first in a text from a place on. It is no part of the loop over nodes, which
/// most texts have no long literals of.
#[inline(never)]
fn find(text: &str, from: usize, sought: &[u8]) -> Option<usize> {
    if sought.len() > SHORT {
        return find_long(text, from, sought);
    }
    find_short(text, from, sought)
}

/// The same of few bytes, or of the front of many.
fn find_short(text: &str, from: usize, sought: &[u8]) -> Option<usize> {
    let (first, after) = sought.split_first()?;
    let mut at = from;
    loop {
        at += find_byte(text.as_bytes().get(at..)?, *first)? + 1;
        let rest = text.as_bytes().get(at..at + after.len())?;
        if rest.iter().zip(after).all(|(byte, wanted)| byte == wanted) {
            return Some(at - 1);
        }
    }
}

/// The same of many bytes, in a time that much that is like them in front doesn't make longer: where
/// their front stands first, nearly always all of them do.
#[inline(never)]
fn find_long(text: &str, from: usize, sought: &[u8]) -> Option<usize> {
    let place = find_short(text, from, &sought[..SHORT])?;
    if text.as_bytes()[place..].starts_with(sought) {
        return Some(place);
    }
    Some(from + text[from..].find(from_utf8(sought).ok()?)?)
}

/// Where a byte stands first in others.
fn find_byte(bytes: &[u8], sought: u8) -> Option<usize> {
    // So many are compared at once.
    const CHUNK: usize = 16;
    let has = |chunk: &[u8]| chunk.iter().fold(false, |found, byte| found | (*byte == sought));
    let skipped = CHUNK * bytes.chunks_exact(CHUNK).take_while(|chunk| !has(chunk)).count();
    Some(skipped + bytes[skipped..].iter().position(|byte| *byte == sought)?)
}

#[cfg(test)]
#[path = "literal_tests.rs"]
mod tests;
