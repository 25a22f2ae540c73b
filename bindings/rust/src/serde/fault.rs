//! Faults for logs and for programs.

use crate::Fault;
use serde::ser::SerializeStruct;
use serde::{Serialize, Serializer};

/// A fault that is written with its fields, for logs and for programs: the name of its kind, the
/// index of the byte at fault, the span of the bytes at fault, the nearest word that is allowed
/// there, if one is near, and the sentence.
#[derive(Debug, Clone, Copy, PartialEq, Eq)]
pub struct FaultFields<'f>(pub &'f Fault);

impl Serialize for FaultFields<'_> {
    fn serialize<S: Serializer>(&self, serializer: S) -> Result<S::Ok, S::Error> {
        let Self(fault) = self;
        let mut fields = serializer.serialize_struct("Fault", 5)?;
        fields.serialize_field("kind", fault.name())?;
        fields.serialize_field("index", &fault.index())?;
        fields.serialize_field("span", &fault.span())?;
        fields.serialize_field("nearest", &fault.nearest())?;
        fields.serialize_field("message", fault.sentence())?;
        fields.end()
    }
}
