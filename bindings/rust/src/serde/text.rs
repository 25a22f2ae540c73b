//! How texts are written, and what messages call their languages.

use core::fmt;

use crate::Language;
use serde::Serializer;
use serde::ser::Error as _;

/// Shows itself as the name of the language.
#[derive(Debug, Clone, Copy)]
pub struct Name(pub Language);

impl fmt::Display for Name {
    fn fmt(&self, f: &mut fmt::Formatter<'_>) -> fmt::Result {
        match self.0 {
            Language::Version(version) => write!(f, "version {version}"),
            Language::Strftime => f.write_str("strftime"),
        }
    }
}

/// Writes a text that is one of `own`, unless one of another language is wanted: who reads it would
/// take it for one of that.
pub fn serialize_text<S: Serializer>(
    own: Language,
    wanted: Language,
    text: &str,
    serializer: S,
) -> Result<S::Ok, S::Error> {
    if own == wanted {
        return serializer.serialize_str(text);
    }
    let (own, wanted) = (Name(own), Name(wanted));
    Err(S::Error::custom(format_args!("a format of {own} can't be written as one of {wanted}")))
}
