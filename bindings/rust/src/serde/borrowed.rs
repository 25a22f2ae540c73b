//! Descriptions that borrow their texts of the input.

use core::fmt;

use crate::{FormatDescription, Language};
use serde::de::{Error, Visitor};
use serde::{Deserializer, Serializer};

use crate::serde::text::{Name, serialize_text};
use crate::serde::traits::{DeserializeIn, SerializeIn};

impl SerializeIn for FormatDescription<'_> {
    fn serialize_in<S: Serializer>(
        &self,
        language: Language,
        serializer: S,
    ) -> Result<S::Ok, S::Error> {
        serialize_text(self.language(), language, self.text(), serializer)
    }
}

impl<'de: 'a, 'a> DeserializeIn<'de> for FormatDescription<'a> {
    fn deserialize_in<D: Deserializer<'de>>(
        language: Language,
        deserializer: D,
    ) -> Result<Self, D::Error> {
        deserializer.deserialize_str(BorrowedVisitor { language })
    }
}

/// The error of a text that can't be borrowed from the input, good or bad.
const NOT_BORROWED: &str = "the format can't be borrowed, since the input escapes it or is read in pieces: \
                            take an `OwnedFormat`";

struct BorrowedVisitor {
    language: Language,
}

impl<'de> Visitor<'de> for BorrowedVisitor {
    type Value = FormatDescription<'de>;

    fn expecting(&self, f: &mut fmt::Formatter<'_>) -> fmt::Result {
        write!(f, "a format of {}", Name(self.language))
    }

    fn visit_borrowed_str<E: Error>(self, text: &'de str) -> Result<Self::Value, E> {
        FormatDescription::parse(self.language, text).map_err(E::custom)
    }

    fn visit_str<E: Error>(self, _: &str) -> Result<Self::Value, E> {
        Err(E::custom(NOT_BORROWED))
    }
}
