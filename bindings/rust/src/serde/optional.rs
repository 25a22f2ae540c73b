//! Formats that may be missing.

use core::fmt;
use core::marker::PhantomData;

use crate::Language;
use serde::de::{Error, Visitor};
use serde::{Deserializer, Serialize, Serializer};

use crate::serde::text::Name;
use crate::serde::traits::{DeserializeIn, SerializeIn};

impl<T: SerializeIn> SerializeIn for Option<T> {
    fn serialize_in<S: Serializer>(
        &self,
        language: Language,
        serializer: S,
    ) -> Result<S::Ok, S::Error> {
        match self {
            Some(format) => serializer.serialize_some(&Present { language, format }),
            None => serializer.serialize_none(),
        }
    }
}

struct Present<'f, T> {
    language: Language,
    format: &'f T,
}

impl<T: SerializeIn> Serialize for Present<'_, T> {
    fn serialize<S: Serializer>(&self, serializer: S) -> Result<S::Ok, S::Error> {
        self.format.serialize_in(self.language, serializer)
    }
}

impl<'de, T: DeserializeIn<'de>> DeserializeIn<'de> for Option<T> {
    fn deserialize_in<D: Deserializer<'de>>(
        language: Language,
        deserializer: D,
    ) -> Result<Self, D::Error> {
        deserializer.deserialize_option(OptionVisitor { language, format: PhantomData })
    }
}

struct OptionVisitor<T> {
    language: Language,
    format: PhantomData<T>,
}

impl<'de, T: DeserializeIn<'de>> Visitor<'de> for OptionVisitor<T> {
    type Value = Option<T>;

    fn expecting(&self, f: &mut fmt::Formatter<'_>) -> fmt::Result {
        write!(f, "a format of {}, or none", Name(self.language))
    }

    fn visit_some<D: Deserializer<'de>>(self, deserializer: D) -> Result<Self::Value, D::Error> {
        T::deserialize_in(self.language, deserializer).map(Some)
    }

    fn visit_none<E: Error>(self) -> Result<Self::Value, E> {
        Ok(None)
    }

    fn visit_unit<E: Error>(self) -> Result<Self::Value, E> {
        Ok(None)
    }
}
