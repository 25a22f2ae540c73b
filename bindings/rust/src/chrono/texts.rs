//! Texts of version 3 for items of `chrono`.

use alloc::string::String;

use chrono::format::{Fixed, Item, Numeric, Pad};

use crate::literal::push_escaped;
use crate::unsupported::Unsupported;

/// The text of version 3 that has the items. It writes what `chrono` writes of years from 0 to 9999.
///
/// # Errors
///
/// The first item that no description has, as those of fractions of a second and of offsets whose
/// form depends on their value.
pub fn to_text(items: &[Item<'_>]) -> Result<String, Unsupported> {
    let mut text = String::new();
    for item in items {
        match item {
            Item::Literal(literal) | Item::Space(literal) => push_escaped(&mut text, literal),
            Item::OwnedLiteral(literal) | Item::OwnedSpace(literal) => {
                push_escaped(&mut text, literal);
            }
            Item::Numeric(number, pad) => push_number(&mut text, number, *pad)?,
            Item::Fixed(fixed) => text.push_str(of_fixed(fixed)?),
            Item::Error => return Err(Unsupported::new("item of an error")),
        }
    }
    Ok(text)
}

/// The name and the modifiers of a number, how many bytes `chrono` fills it to, and how many bytes
/// the description does.
fn push_number(text: &mut String, number: &Numeric, pad: Pad) -> Result<(), Unsupported> {
    let words = match number {
        Numeric::Year => "year range:extended",
        Numeric::YearDiv100 => "year repr:century range:standard",
        Numeric::YearMod100 => "year repr:last_two",
        Numeric::IsoYear => "year base:iso_week range:extended",
        Numeric::IsoYearDiv100 => "year base:iso_week repr:century range:standard",
        Numeric::IsoYearMod100 => "year base:iso_week repr:last_two",
        Numeric::Month => "month",
        Numeric::Day => "day",
        Numeric::WeekFromSun => "week_number repr:sunday",
        Numeric::WeekFromMon => "week_number repr:monday",
        Numeric::IsoWeek => "week_number",
        Numeric::Ordinal => "ordinal",
        Numeric::Hour => "hour",
        Numeric::Hour12 => "hour repr:12",
        Numeric::Minute => "minute",
        Numeric::Second => "second",
        Numeric::NumDaysFromSun => return push(text, "weekday repr:sunday one_indexed:false"),
        Numeric::WeekdayFromMon => return push(text, "weekday repr:monday"),
        Numeric::Nanosecond if matches!(pad, Pad::Zero) => return push(text, "subsecond digits:9"),
        Numeric::Timestamp if matches!(pad, Pad::None) => return push(text, "unix_timestamp"),
        _ => return Err(Unsupported::new("number of this kind")),
    };
    let padding = match pad {
        Pad::None => " padding:none",
        Pad::Zero => "",
        Pad::Space => " padding:space",
    };
    text.extend(["[", words, padding, "]"]);
    Ok(())
}

fn push(text: &mut String, words: &str) -> Result<(), Unsupported> {
    text.extend(["[", words, "]"]);
    Ok(())
}

fn of_fixed(fixed: &Fixed) -> Result<&'static str, Unsupported> {
    Ok(match fixed {
        Fixed::ShortMonthName => "[month repr:short case_sensitive:false]",
        Fixed::LongMonthName => "[month repr:long case_sensitive:false]",
        Fixed::ShortWeekdayName => "[weekday repr:short case_sensitive:false]",
        Fixed::LongWeekdayName => "[weekday case_sensitive:false]",
        Fixed::LowerAmPm => "[period case:lower case_sensitive:false]",
        Fixed::UpperAmPm => "[period case_sensitive:false]",
        Fixed::Nanosecond3 => ".[subsecond digits:3]",
        Fixed::Nanosecond6 => ".[subsecond digits:6]",
        Fixed::Nanosecond9 => ".[subsecond digits:9]",
        Fixed::TimezoneOffsetColon => "[offset_hour sign:mandatory]:[offset_minute]",
        Fixed::TimezoneOffset => "[offset_hour sign:mandatory][offset_minute]",
        _ => return Err(Unsupported::new("item of this kind")),
    })
}
