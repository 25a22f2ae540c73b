//! Values and items of the crate [`chrono`](::chrono) 0.4, from and to those here.
//!
//! ```
//! use chrono::{DateTime, FixedOffset, NaiveDate};
//! use timefd::{FormatDescription, Language, Moment, Version};
//!
//! let day = NaiveDate::from_ymd_opt(2026, 11, 23).unwrap();
//! assert_eq!(timefd::format(Version::Three, "[day].[month].", &Moment::from(day))?, "23.11.");
//!
//! let read = timefd::read(Language::Strftime, "%F %T %z", "2026-11-23 05:06:07 +0100")?;
//! let instant = DateTime::<FixedOffset>::try_from(read)?;
//! assert_eq!(instant.timestamp(), 1_795_406_767);
//!
//! let description = FormatDescription::parse(Version::Three, "[day].[month].[year]")?;
//! let items = timefd::chrono::to_items(&description)?;
//! assert_eq!(day.format_with_items(items.iter()).to_string(), "23.11.2026");
//!
//! let items: Vec<_> = chrono::format::StrftimeItems::new("%H:%M").collect();
//! assert_eq!(timefd::chrono::to_text(&items)?, "[hour]:[minute]");
//! # Ok::<(), Box<dyn std::error::Error>>(())
//! ```
//!
//! Their leap second is a [`Time`](crate::Time) here whose nanosecond is out of its range: what
//! writes it says so.

mod items;
mod texts;
mod values;

pub use items::to_items;
pub use texts::to_text;

pub use crate::unsupported::Unsupported;
