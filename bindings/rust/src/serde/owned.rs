//! Formats that own their texts.

use alloc::string::String;
use core::fmt;
use core::hash::{Hash, Hasher};

use crate::{FormatDescription, Language, ParseError, Warning};
use serde::de::Error;
use serde::{Deserializer, Serializer};

use crate::serde::any::AnyVisitor;
use crate::serde::text::{Name, serialize_text};
use crate::serde::traits::{DeserializeIn, SerializeIn};

/// A format that owns its text, parsed when this was made.
///
/// ```
/// use timefd::Version;
/// use timefd::serde::OwnedFormat;
///
/// let format = OwnedFormat::new(Version::Three, "due [day]")?;
/// assert_eq!(format.description().items().count(), 2);
///
/// let error = OwnedFormat::new(Version::Three, "due [day").unwrap_err();
/// assert_eq!(error.to_string(), "unclosed opening bracket at byte index 4");
/// # Ok::<(), timefd::ParseError>(())
/// ```
///
/// What `serde` reads has a component: a text without one, as `%Y-%m-%d` in version 3, is refused, since
/// each date would be written alike. [`AnyFormat`](crate::serde::AnyFormat) takes such texts too, and so
/// does [`new`](Self::new).
///
/// Two are equal where both their languages and their texts are.
#[derive(Debug, Clone)]
pub struct OwnedFormat {
    description: FormatDescription<'static>,
}

impl OwnedFormat {
    /// Parses a text of a language.
    ///
    /// # Errors
    ///
    /// The fault that the rules of the language assign to the text, or that memory ran out.
    pub fn new(language: impl Into<Language>, text: impl AsRef<str>) -> Result<Self, ParseError> {
        FormatDescription::parse(language, text.as_ref()).map(Self::from)
    }

    /// The text.
    #[must_use]
    pub fn text(&self) -> &str {
        self.description.text()
    }

    /// The language that the text is one of.
    #[must_use]
    pub fn language(&self) -> Language {
        self.description.language()
    }

    /// What was parsed.
    #[must_use]
    pub fn description(&self) -> &FormatDescription<'static> {
        &self.description
    }

    /// The text, without a copy.
    #[must_use]
    pub fn into_text(self) -> String {
        self.description.into_text()
    }
}

impl From<FormatDescription<'_>> for OwnedFormat {
    fn from(description: FormatDescription<'_>) -> Self {
        Self { description: description.into_owned() }
    }
}

impl From<OwnedFormat> for FormatDescription<'static> {
    fn from(format: OwnedFormat) -> Self {
        format.description
    }
}

impl PartialEq for OwnedFormat {
    fn eq(&self, other: &Self) -> bool {
        (self.language(), self.text()) == (other.language(), other.text())
    }
}

impl Eq for OwnedFormat {}

impl Hash for OwnedFormat {
    fn hash<H: Hasher>(&self, state: &mut H) {
        (self.language(), self.text()).hash(state);
    }
}

impl SerializeIn for OwnedFormat {
    fn serialize_in<S: Serializer>(
        &self,
        language: Language,
        serializer: S,
    ) -> Result<S::Ok, S::Error> {
        serialize_text(self.language(), language, self.text(), serializer)
    }
}

impl<'de> DeserializeIn<'de> for OwnedFormat {
    fn deserialize_in<D: Deserializer<'de>>(
        language: Language,
        deserializer: D,
    ) -> Result<Self, D::Error> {
        let format = deserializer.deserialize_string(AnyVisitor { language })?;
        let warnings = format.description.warnings().map_err(D::Error::custom)?;
        if warnings.contains(&Warning::NoComponent) {
            return Err(D::Error::custom(NoComponent { format: &format, warnings: &warnings }));
        }
        Ok(format)
    }
}

/// Shows why a format without a component is refused.
struct NoComponent<'a> {
    format: &'a OwnedFormat,
    warnings: &'a [Warning],
}

impl fmt::Display for NoComponent<'_> {
    fn fmt(&self, f: &mut fmt::Formatter<'_>) -> fmt::Result {
        let text = self.format.text();
        write!(f, "the format `{text}` has no component, so each date would be written alike")?;
        if self.warnings.contains(&Warning::OtherLanguage) {
            let language = Name(self.format.language());
            write!(f, "; it is a format of another language than {language}")?;
        }
        Ok(())
    }
}
