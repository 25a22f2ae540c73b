//! For `#[serde(with = "timefd::serde::version")]`: a [`Version`] as its number.

use core::fmt;

use crate::Version;
use serde::de::{Error, Unexpected, Visitor};
use serde::{Deserializer, Serializer};

/// Writes the number.
///
/// # Errors
///
/// It can't be written.
pub fn serialize<S: Serializer>(version: &Version, serializer: S) -> Result<S::Ok, S::Error> {
    serializer.serialize_u8(u8::from(*version))
}

/// Reads a number.
///
/// # Errors
///
/// There is no number, or none of 1, 2 and 3.
pub fn deserialize<'de, D: Deserializer<'de>>(deserializer: D) -> Result<Version, D::Error> {
    deserializer.deserialize_u8(VersionVisitor)
}

struct VersionVisitor;

impl Visitor<'_> for VersionVisitor {
    type Value = Version;

    fn expecting(&self, f: &mut fmt::Formatter<'_>) -> fmt::Result {
        f.write_str("the number of a version: 1, 2 or 3")
    }

    fn visit_u64<E: Error>(self, number: u64) -> Result<Version, E> {
        let unknown = || E::invalid_value(Unexpected::Unsigned(number), &self);
        version_of(number).ok_or_else(unknown)
    }

    fn visit_i64<E: Error>(self, number: i64) -> Result<Version, E> {
        let unknown = || E::invalid_value(Unexpected::Signed(number), &self);
        version_of(number).ok_or_else(unknown)
    }
}

fn version_of(number: impl TryInto<u8>) -> Option<Version> {
    Version::try_from(number.try_into().ok()?).ok()
}
