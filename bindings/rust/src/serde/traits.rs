//! What the modules of the languages write and read.

use crate::Language;
use serde::{Deserializer, Serializer};

/// What is written as the text of a language.
pub trait SerializeIn {
    /// Writes the text.
    ///
    /// # Errors
    ///
    /// The text is one of another language, or it can't be written.
    fn serialize_in<S: Serializer>(
        &self,
        language: Language,
        serializer: S,
    ) -> Result<S::Ok, S::Error>;
}

/// What is read of a text of a language.
pub trait DeserializeIn<'de>: Sized {
    /// Reads the text.
    ///
    /// # Errors
    ///
    /// The fault that the rules of the language assign to the text, or that there is no text, or
    /// that memory ran out.
    fn deserialize_in<D: Deserializer<'de>>(
        language: Language,
        deserializer: D,
    ) -> Result<Self, D::Error>;
}
