//! Texts of version 3 for items of `time`.

use alloc::format;
use alloc::string::String;
use core::fmt::Write as _;
use core::str;

use time::format_description::modifier::{
    MonthRepr, Padding, SubsecondDigits, WeekNumberRepr, WeekdayRepr, Year, YearRepr,
};
use time::format_description::{Component, FormatItem};

use crate::literal::push_escaped;
use crate::unsupported::Unsupported;

/// The text of version 3 that has the items, the years in their extended range.
///
/// # Errors
///
/// The first item that is of no kind that `time` 0.3.9 has, or a literal that is no text.
pub fn to_text(items: &[FormatItem<'_>]) -> Result<String, Unsupported> {
    let mut text = String::new();
    for item in items {
        write_item(&mut text, item)?;
    }
    Ok(text)
}

fn write_item(text: &mut String, item: &FormatItem<'_>) -> Result<(), Unsupported> {
    match item {
        FormatItem::Literal(bytes) => write_literal(text, bytes)?,
        FormatItem::Component(component) => {
            text.push('[');
            text.push_str(&bracket(*component)?);
            text.push(']');
        }
        FormatItem::Compound(items) => text.push_str(&to_text(items)?),
        FormatItem::Optional(item) => {
            text.push_str("[optional ");
            write_nested(text, item)?;
            text.push(']');
        }
        FormatItem::First(items) => {
            text.push_str("[first");
            for item in *items {
                text.push(' ');
                write_nested(text, item)?;
            }
            text.push(']');
        }
        _ => return Err(Unsupported::new("item of this kind")),
    }
    Ok(())
}

fn write_nested(text: &mut String, item: &FormatItem<'_>) -> Result<(), Unsupported> {
    text.push('[');
    write_item(text, item)?;
    text.push(']');
    Ok(())
}

fn write_literal(text: &mut String, bytes: &[u8]) -> Result<(), Unsupported> {
    push_escaped(text, str::from_utf8(bytes).map_err(|_| Unsupported::new("literal of bytes"))?);
    Ok(())
}

/// What stands between the brackets of a component.
fn bracket(component: Component) -> Result<String, Unsupported> {
    let mut text = String::new();
    let written = match component {
        Component::Day(day) => write!(text, "day padding:{}", padding(day.padding)?),
        Component::Month(month) => match month.repr {
            MonthRepr::Numerical => write!(text, "month padding:{}", padding(month.padding)?),
            MonthRepr::Long => {
                write!(text, "month repr:long case_sensitive:{}", month.case_sensitive)
            }
            MonthRepr::Short => {
                write!(text, "month repr:short case_sensitive:{}", month.case_sensitive)
            }
            _ => return Err(Unsupported::new("month of this kind")),
        },
        Component::Ordinal(day) => write!(text, "ordinal padding:{}", padding(day.padding)?),
        Component::Weekday(day) => {
            let (case_sensitive, one_indexed) = (day.case_sensitive, day.one_indexed);
            match day.repr {
                WeekdayRepr::Long => {
                    write!(text, "weekday repr:long case_sensitive:{case_sensitive}")
                }
                WeekdayRepr::Short => {
                    write!(text, "weekday repr:short case_sensitive:{case_sensitive}")
                }
                WeekdayRepr::Sunday => {
                    write!(text, "weekday repr:sunday one_indexed:{one_indexed}")
                }
                WeekdayRepr::Monday => {
                    write!(text, "weekday repr:monday one_indexed:{one_indexed}")
                }
                _ => return Err(Unsupported::new("weekday of this kind")),
            }
        }
        Component::WeekNumber(week) => {
            let repr = week_repr(week.repr)?;
            write!(text, "week_number padding:{} repr:{repr}", padding(week.padding)?)
        }
        Component::Year(year) => return bracket_of_year(year),
        Component::Subsecond(part) => write!(text, "subsecond digits:{}", digits(part.digits)?),
        of_a_clock => return bracket_of_clock(of_a_clock),
    };
    written.expect("a text takes what is written");
    Ok(text)
}

fn bracket_of_clock(component: Component) -> Result<String, Unsupported> {
    Ok(match component {
        Component::Hour(hour) => {
            let repr = if hour.is_12_hour_clock { "12" } else { "24" };
            format!("hour padding:{} repr:{repr}", padding(hour.padding)?)
        }
        Component::Minute(minute) => format!("minute padding:{}", padding(minute.padding)?),
        Component::Second(second) => format!("second padding:{}", padding(second.padding)?),
        Component::Period(period) => {
            let case = if period.is_uppercase { "upper" } else { "lower" };
            format!("period case:{case} case_sensitive:{}", period.case_sensitive)
        }
        Component::OffsetHour(hour) => {
            let padding = padding(hour.padding)?;
            format!("offset_hour sign:{} padding:{padding}", sign(hour.sign_is_mandatory))
        }
        Component::OffsetMinute(part) => {
            format!("offset_minute padding:{}", padding(part.padding)?)
        }
        Component::OffsetSecond(part) => {
            format!("offset_second padding:{}", padding(part.padding)?)
        }
        _ => return Err(Unsupported::new("component of this kind")),
    })
}

fn bracket_of_year(year: Year) -> Result<String, Unsupported> {
    let padding = padding(year.padding)?;
    let base = if year.iso_week_based { "iso_week" } else { "calendar" };
    match year.repr {
        YearRepr::Full => {
            let sign = sign(year.sign_is_mandatory);
            Ok(format!("year padding:{padding} range:extended base:{base} sign:{sign}"))
        }
        YearRepr::LastTwo => Ok(format!("year padding:{padding} repr:last_two base:{base}")),
        _ => Err(Unsupported::new("year of this kind")),
    }
}

fn padding(padding: Padding) -> Result<&'static str, Unsupported> {
    match padding {
        Padding::Space => Ok("space"),
        Padding::Zero => Ok("zero"),
        Padding::None => Ok("none"),
        _ => Err(Unsupported::new("padding of this kind")),
    }
}

fn sign(is_mandatory: bool) -> &'static str {
    if is_mandatory { "mandatory" } else { "automatic" }
}

fn week_repr(repr: WeekNumberRepr) -> Result<&'static str, Unsupported> {
    match repr {
        WeekNumberRepr::Iso => Ok("iso"),
        WeekNumberRepr::Sunday => Ok("sunday"),
        WeekNumberRepr::Monday => Ok("monday"),
        _ => Err(Unsupported::new("week_number of this kind")),
    }
}

fn digits(digits: SubsecondDigits) -> Result<&'static str, Unsupported> {
    Ok(match digits {
        SubsecondDigits::One => "1",
        SubsecondDigits::Two => "2",
        SubsecondDigits::Three => "3",
        SubsecondDigits::Four => "4",
        SubsecondDigits::Five => "5",
        SubsecondDigits::Six => "6",
        SubsecondDigits::Seven => "7",
        SubsecondDigits::Eight => "8",
        SubsecondDigits::Nine => "9",
        SubsecondDigits::OneOrMore => "1+",
        _ => return Err(Unsupported::new("subsecond of this kind")),
    })
}
