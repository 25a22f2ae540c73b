//! The front of an input that is still to be read.

use timefd::Padding;

use crate::read::ReadError;

/// What is still to be read of an input.
#[derive(Debug, Clone, Copy)]
pub(crate) struct Input<'a> {
    text: &'a str,
    at: usize,
}

impl<'a> Input<'a> {
    pub(crate) fn new(text: &'a str) -> Self {
        Self { text, at: 0 }
    }

    pub(crate) fn rest(&self) -> &'a str {
        &self.text[self.at..]
    }

    /// The error that the input is not as the description says from here on.
    pub(crate) fn mismatch(&self) -> ReadError {
        ReadError::Mismatch(self.at)
    }

    /// Passes the text, if it stands here.
    pub(crate) fn passes(&mut self, text: &str) -> bool {
        let found = self.rest().starts_with(text);
        self.at += if found { text.len() } else { 0 };
        found
    }

    /// Passes so many bytes, which end with a character.
    pub(crate) fn skip(&mut self, bytes: usize) -> Result<(), ReadError> {
        self.rest().get(bytes..).ok_or(self.mismatch())?;
        self.at += bytes;
        Ok(())
    }

    /// The number, from 1, of the name that stands here.
    pub(crate) fn name<'n>(
        &mut self,
        names: impl IntoIterator<Item = &'n str>,
        case_sensitive: bool,
    ) -> Result<u8, ReadError> {
        let rest = self.rest();
        let stands_here = |name: &str| match rest.get(..name.len()) {
            Some(front) if case_sensitive => front == name,
            Some(front) => front.eq_ignore_ascii_case(name),
            None => false,
        };
        let found = (1..).zip(names).find(|(_, name)| stands_here(name));
        let (number, name) = found.ok_or(self.mismatch())?;
        self.at += name.len();
        Ok(number)
    }

    /// The number that at least and at most so many digits are.
    pub(crate) fn digits(&mut self, least: usize, most: usize) -> Result<u32, ReadError> {
        let digits = self.rest().bytes().take(most).take_while(u8::is_ascii_digit).count();
        let number = self.rest()[..digits].parse();
        match number {
            Ok(number) if digits >= least => {
                self.at += digits;
                Ok(number)
            }
            _ => Err(self.mismatch()),
        }
    }

    /// A number that is filled on the left to so many bytes.
    pub(crate) fn padded(&mut self, padding: Padding, width: usize) -> Result<u32, ReadError> {
        match padding {
            Padding::Zero => self.digits(width, width),
            Padding::None => self.digits(1, width),
            Padding::Space => {
                let spaces = self.rest().bytes().take(width - 1).take_while(|it| *it == b' ');
                let spaces = spaces.count();
                self.at += spaces;
                self.digits(width - spaces, width - spaces)
            }
            _ => Err(ReadError::NotRead),
        }
    }

    /// Whether a minus stands here. A plus may stand here where no sign is mandatory, too.
    pub(crate) fn sign(&mut self, is_mandatory: bool) -> Result<Option<bool>, ReadError> {
        if self.passes("-") {
            Ok(Some(true))
        } else if self.passes("+") {
            Ok(Some(false))
        } else if is_mandatory {
            Err(self.mismatch())
        } else {
            Ok(None)
        }
    }
}
