//! Formats that need no component.

use core::fmt;

use crate::Language;
use serde::de::{Error, Visitor};
use serde::{Deserializer, Serializer};

use crate::serde::owned::OwnedFormat;
use crate::serde::text::Name;
use crate::serde::traits::{DeserializeIn, SerializeIn};

/// An [`OwnedFormat`] that is read of each text of its language, also of one without a component, by
/// which each date is written alike.
///
/// ```
/// # use serde::Deserialize;
/// use timefd::serde::AnyFormat;
///
/// #[derive(Deserialize)]
/// struct Config {
///     #[serde(with = "timefd::serde::version_3")]
///     heading: AnyFormat,
/// }
///
/// let config: Config = serde_json::from_str(r#"{"heading": "today"}"#)?;
/// assert_eq!(config.heading.0.text(), "today");
/// # Ok::<(), serde_json::Error>(())
/// ```
#[derive(Debug, Clone, PartialEq, Eq, Hash)]
pub struct AnyFormat(pub OwnedFormat);

impl SerializeIn for AnyFormat {
    fn serialize_in<S: Serializer>(
        &self,
        language: Language,
        serializer: S,
    ) -> Result<S::Ok, S::Error> {
        self.0.serialize_in(language, serializer)
    }
}

impl<'de> DeserializeIn<'de> for AnyFormat {
    fn deserialize_in<D: Deserializer<'de>>(
        language: Language,
        deserializer: D,
    ) -> Result<Self, D::Error> {
        deserializer.deserialize_string(AnyVisitor { language }).map(Self)
    }
}

/// Reads a format of each text of the language.
pub struct AnyVisitor {
    /// The language of the text.
    pub language: Language,
}

impl Visitor<'_> for AnyVisitor {
    type Value = OwnedFormat;

    fn expecting(&self, f: &mut fmt::Formatter<'_>) -> fmt::Result {
        write!(f, "a format of {}", Name(self.language))
    }

    fn visit_str<E: Error>(self, text: &str) -> Result<OwnedFormat, E> {
        OwnedFormat::new(self.language, text).map_err(E::custom)
    }
}
