#![doc = include_str!("serde.md")]

mod any;
mod borrowed;
mod fault;
mod languages;
mod optional;
mod owned;
mod text;
mod traits;
mod values;
pub mod version;

pub use any::AnyFormat;
pub use fault::FaultFields;
pub use languages::{strftime, version_1, version_2, version_3};
pub use owned::OwnedFormat;
pub use traits::{DeserializeIn, SerializeIn};
