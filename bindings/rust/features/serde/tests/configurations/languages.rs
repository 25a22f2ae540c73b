//! The modules of the languages, by a language.

use serde::de::value::{BorrowedStrDeserializer, Error};
use serde_json::value::{Serializer, Value};
use timefd::serde::{DeserializeIn, SerializeIn, strftime, version_1, version_2, version_3};
use timefd::{Language, Version};

pub const ONE: Language = Language::Version(Version::One);
pub const TWO: Language = Language::Version(Version::Two);
pub const THREE: Language = Language::Version(Version::Three);
pub const STRFTIME: Language = Language::Strftime;

pub const VERSIONS: &[Language] = &[ONE, TWO, THREE];
pub const ALL: &[Language] = &[ONE, TWO, THREE, STRFTIME];

/// What the module of the language reads of a text. An error shows itself without a line and a
/// column.
pub fn read<'de, T: DeserializeIn<'de>>(language: Language, text: &'de str) -> Result<T, Error> {
    let input = BorrowedStrDeserializer::new(text);
    match language {
        ONE => version_1::deserialize(input),
        TWO => version_2::deserialize(input),
        THREE => version_3::deserialize(input),
        STRFTIME => strftime::deserialize(input),
        _ => panic!("no module is for {language}"),
    }
}

/// What the module of the language writes.
pub fn write(language: Language, format: &impl SerializeIn) -> Result<Value, serde_json::Error> {
    match language {
        ONE => version_1::serialize(format, Serializer),
        TWO => version_2::serialize(format, Serializer),
        THREE => version_3::serialize(format, Serializer),
        STRFTIME => strftime::serialize(format, Serializer),
        _ => panic!("no module is for {language}"),
    }
}
