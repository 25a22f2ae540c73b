//! Values and items of the crate [`time`](::time) 0.3, from and to those here.
//!
//! ```
//! use timefd::{FormatDescription, Language, Moment, Version};
//!
//! let day = time::Date::from_calendar_date(2026, time::Month::November, 23)?;
//! assert_eq!(timefd::format(Language::Strftime, "%d.%m.%Y", &Moment::from(day))?, "23.11.2026");
//!
//! let read = timefd::read(Language::Strftime, "%FT%T", "2026-11-23T05:06:07")?;
//! assert_eq!(time::PrimitiveDateTime::try_from(read)?, day.with_hms(5, 6, 7)?);
//!
//! let description = FormatDescription::parse(Language::Strftime, "%d.%m.%Y")?;
//! let items = timefd::time::to_items(&description)?;
//! assert_eq!(day.format(&items)?, "23.11.2026");
//!
//! let items = time::format_description::parse("[hour]:[minute]")?;
//! let text = timefd::time::to_text(&items)?;
//! let description = FormatDescription::parse(Version::Three, &text)?;
//! assert_eq!(description, FormatDescription::parse(Language::Strftime, "%H:%M")?);
//! # Ok::<(), Box<dyn std::error::Error>>(())
//! ```
//!
//! `time` before 0.3.38 has one range of years. What it writes of a year of up to four digits, which
//! is all that its dates hold without its feature `large-dates`, is the same in both ranges here.

mod items;
mod texts;
mod values;

pub use items::to_items;
pub use texts::to_text;

pub use crate::unsupported::Unsupported;
