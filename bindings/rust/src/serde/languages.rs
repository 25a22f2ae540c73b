//! One module for each language.

use crate::{Language, Version};
use serde::{Deserializer, Serializer};

use crate::serde::traits::{DeserializeIn, SerializeIn};

macro_rules! language {
    ($(#[$about:meta])* $name:ident, $language:expr) => {
        $(#[$about])*
        pub mod $name {
            use super::*;

            /// Writes the text.
            ///
            /// # Errors
            ///
            /// The text is one of another language, or it can't be written.
            pub fn serialize<T: SerializeIn, S: Serializer>(
                format: &T,
                serializer: S,
            ) -> Result<S::Ok, S::Error> {
                format.serialize_in($language, serializer)
            }

            /// Reads a text.
            ///
            /// # Errors
            ///
            /// The fault that the rules of the language assign to the text, or that there is no
            /// text, or that memory ran out.
            pub fn deserialize<'de, T: DeserializeIn<'de>, D: Deserializer<'de>>(
                deserializer: D,
            ) -> Result<T, D::Error> {
                T::deserialize_in($language, deserializer)
            }
        }
    };
}

language! {
    /// For `#[serde(with = "timefd::serde::version_1")]`: formats of version 1.
    version_1, Language::Version(Version::One)
}

language! {
    /// For `#[serde(with = "timefd::serde::version_2")]`: formats of version 2.
    version_2, Language::Version(Version::Two)
}

language! {
    /// For `#[serde(with = "timefd::serde::version_3")]`: formats of version 3.
    ///
    /// A [`FormatDescription`](crate::FormatDescription) is read only if its text can be borrowed
    /// from the input as it is: JSON escapes each text with a `\`, like `\[`, and nothing can be
    /// borrowed from an input that is read in pieces. An [`OwnedFormat`](super::OwnedFormat) is read
    /// from every input.
    version_3, Language::Version(Version::Three)
}

language! {
    /// For `#[serde(with = "timefd::serde::strftime")]`: conversion specifications of strftime.
    strftime, Language::Strftime
}
