//! Parses the format descriptions of `time` (`[year]-[month]-[day]`, versions 1, 2 and 3) and those
//! of strftime (`%Y-%m-%d`), or answers the one fault of a bad one, with its byte index. By a good one
//! it writes and reads dates.
//!
//! A static library that is proved does the work; this crate calls it from Rust, and is itself only
//! tested. Begin with [`FormatDescription`]:
//!
//! ```
//! use timefd::{FormatDescription, Part, Version};
//!
//! let description = FormatDescription::parse(Version::Three, "due [day]")?;
//! for part in description.parts() {
//!     match part {
//!         Part::Literal(text) => println!("{text:?}"),
//!         Part::Component(component) => println!("{component:?}"),
//!         _ => {} // later versions may have more
//!     }
//! }
//! println!("at most {} bytes", description.max_bytes_needed());
//! # Ok::<(), timefd::ParseError>(())
//! ```
//!
//! [`format`] writes a date:
//!
//! ```
//! use timefd::{Date, Moment, Version};
//!
//! let day = Moment::from(Date::new(2026, 11, 23)?);
//! assert_eq!(timefd::format(Version::Three, "[month]/[day]", &day)?, "11/23");
//! # Ok::<(), Box<dyn std::error::Error>>(())
//! ```
//!
//! [`read`] reads one:
//!
//! ```
//! use timefd::Version;
//!
//! let day = timefd::read(Version::Three, "[day]/[month]/[year]", "23/11/2026")?;
//! assert_eq!(day.to_string(), "2026-11-23");
//! # Ok::<(), timefd::ReadError>(())
//! ```
//!
//! Calls may come from any thread. Reading a text that is nested as deep as it may be, 127 deep,
//! takes about 70 KiB of stack, and reading a date by it up to 256 KiB.

#![no_std]

extern crate alloc;
#[cfg(any(test, feature = "std"))]
extern crate std;

mod bracket;
mod buffer;
mod builder;
#[cfg(feature = "chrono")]
pub mod chrono;
mod component;
mod component_kind;
mod content;
mod convert;
mod convert_format;
mod date;
mod decode;
mod description;
mod dialect;
#[cfg(test)]
mod encode;
mod error;
mod fault;
mod format;
mod iso;
#[cfg(feature = "jiff")]
mod jiff;
mod kept;
mod lack;
mod links;
mod literal;
#[cfg(feature = "macros")]
mod macros;
mod modifier;
mod moment;
mod moment_part;
mod node;
mod parts;
#[cfg(not(feature = "macros"))]
mod prepared;
#[cfg(feature = "macros")]
#[doc(hidden)]
pub mod prepared;
pub mod presets;
mod range;
mod read;
mod reason;
#[cfg(feature = "serde")]
pub mod serde;
mod sys;
#[cfg(feature = "std")]
mod system_time;
mod taken;
#[cfg(feature = "time")]
pub mod time;
mod time_of_day;
mod tree;
#[cfg(any(feature = "time", feature = "chrono"))]
mod unsupported;
mod value_error;
mod version;
mod warning;
mod write;
mod written;

pub use builder::DescriptionBuilder;
pub use component::Component;
pub use component_kind::ComponentKind;
pub use convert::{ConvertError, convert, v1_to_v2, v2_to_v3};
pub use convert_format::{ConvertFormatError, ConvertedFormat, Refusal, convert_format};
pub use date::Date;
pub use description::FormatDescription;
pub use dialect::{Dialect, UnknownDialect};
pub use error::ParseError;
pub use fault::{Fault, FaultKind};
pub use format::{FormatError, format};
pub use lack::Lack;
pub use modifier::{Padding, SubsecondDigits, TrailingInput};
pub use moment::Moment;
pub use moment_part::MomentPart;
pub use node::{Item, Members, Node, Nodes};
pub use parts::{Part, Parts};
pub use range::{Number, RangeError};
pub use read::{ReadError, Unread, read};
pub use reason::Reason;
pub use time_of_day::Time;
pub use value_error::ValueError;
pub use version::{Language, UnknownLanguage, UnknownVersion, Version};
pub use warning::Warning;
pub use write::{Shown, WriteError};
