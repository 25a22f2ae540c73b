//! The reader.

use std::error::Error;
use std::fmt;

use timefd::{Component, FormatDescription, Node, Padding, SubsecondDigits, TrailingInput};

use crate::civil::Civil;
use crate::input::Input;
use crate::names::{MONTHS, WEEKDAYS, short};

/// Why no date is read.
#[derive(Debug, Clone, Copy, PartialEq, Eq)]
pub enum ReadError {
    /// The input is not as the description says, from the byte at this index on.
    Mismatch(usize),
    /// This reader doesn't read such a part.
    NotRead,
    /// The description doesn't say which day it is, or there is no such day.
    NoDate,
}

impl fmt::Display for ReadError {
    fn fmt(&self, f: &mut fmt::Formatter<'_>) -> fmt::Result {
        match self {
            Self::Mismatch(index) => {
                write!(f, "not as the description says from the byte {index} on")
            }
            Self::NotRead => f.write_str("the description has a part that isn't read here"),
            Self::NoDate => f.write_str("no such date"),
        }
    }
}

impl Error for ReadError {}

/// What was read of a date.
#[derive(Default)]
struct Found {
    year: Option<i32>,
    month: Option<u8>,
    day: Option<u8>,
    days_from_monday: Option<u8>,
    hour: u8,
    is_afternoon: Option<bool>,
    minute: u8,
    second: u8,
    nanosecond: u32,
    offset_is_negative: bool,
    offset: i32,
}

/// The date that the input is by the items of the description, up to its end. Those of version 1
/// are all that is read here.
pub fn read(description: &FormatDescription, input: &str) -> Result<Civil, ReadError> {
    let mut found = Found::default();
    let mut input = Input::new(input);
    for item in description.items() {
        match item.node() {
            Node::Literal(text) if input.passes(text) => {}
            Node::Literal(_) => return Err(input.mismatch()),
            Node::Component(component) => found.read(&mut input, component)?,
            _ => return Err(ReadError::NotRead),
        }
    }
    if input.rest().is_empty() { found.date() } else { Err(input.mismatch()) }
}

impl Found {
    /// Reads a component.
    fn read(&mut self, input: &mut Input<'_>, component: Component) -> Result<(), ReadError> {
        match component {
            Component::CalendarYearFullExtendedRange { padding, sign_is_mandatory } => {
                self.year = Some(year(input, padding, sign_is_mandatory)?);
            }
            Component::MonthNumerical { padding } => {
                self.month = Some(input.padded(padding, 2)? as u8);
            }
            Component::MonthLong { case_sensitive } => {
                self.month = Some(input.name(MONTHS, case_sensitive)?);
            }
            Component::MonthShort { case_sensitive } => {
                self.month = Some(input.name(MONTHS.map(short), case_sensitive)?);
            }
            Component::Day { padding } => self.day = Some(input.padded(padding, 2)? as u8),
            Component::WeekdayLong { case_sensitive } => {
                self.days_from_monday = Some(input.name(WEEKDAYS, case_sensitive)? - 1);
            }
            Component::WeekdayShort { case_sensitive } => {
                let names = WEEKDAYS.map(short);
                self.days_from_monday = Some(input.name(names, case_sensitive)? - 1);
            }
            _ => return self.read_clock(input, component),
        }
        Ok(())
    }

    /// Reads a component of the time of day, or one that has no value.
    fn read_clock(&mut self, input: &mut Input<'_>, component: Component) -> Result<(), ReadError> {
        match component {
            Component::Hour24 { padding } | Component::Hour12 { padding } => {
                self.hour = input.padded(padding, 2)? as u8;
            }
            Component::Minute { padding } => self.minute = input.padded(padding, 2)? as u8,
            Component::Second { padding } => self.second = input.padded(padding, 2)? as u8,
            Component::Period { is_uppercase, case_sensitive } => {
                let names = if is_uppercase { ["AM", "PM"] } else { ["am", "pm"] };
                self.is_afternoon = Some(input.name(names, case_sensitive)? == 2);
            }
            Component::Subsecond { digits } => self.nanosecond = nanosecond(input, digits)?,
            Component::OffsetHour { sign_is_mandatory, padding } => {
                self.offset_is_negative = input.sign(sign_is_mandatory)? == Some(true);
                self.offset += input.padded(padding, 2)? as i32 * 3600;
            }
            Component::OffsetMinute { padding } => {
                self.offset += input.padded(padding, 2)? as i32 * 60;
            }
            Component::OffsetSecond { padding } => self.offset += input.padded(padding, 2)? as i32,
            Component::Ignore { count } => input.skip(count.get().into())?,
            Component::End { trailing_input: TrailingInput::Discard } => {
                input.skip(input.rest().len())?;
            }
            Component::End { trailing_input: TrailingInput::Prohibit } => {
                if !input.rest().is_empty() {
                    return Err(input.mismatch());
                }
            }
            _ => return Err(ReadError::NotRead),
        }
        Ok(())
    }

    fn date(self) -> Result<Civil, ReadError> {
        let (Some(year), Some(month), Some(day)) = (self.year, self.month, self.day) else {
            return Err(ReadError::NoDate);
        };
        let hour = match self.is_afternoon {
            None => self.hour,
            Some(_) if !(1..=12).contains(&self.hour) => return Err(ReadError::NoDate),
            Some(is_afternoon) => self.hour % 12 + if is_afternoon { 12 } else { 0 },
        };
        let (minute, second, nanosecond) = (self.minute, self.second, self.nanosecond);
        let offset = if self.offset_is_negative { -self.offset } else { self.offset };
        let date = Civil { year, month, day, hour, minute, second, nanosecond, offset };
        if !date.exists() || self.days_from_monday.is_some_and(|it| it != date.days_from_monday()) {
            return Err(ReadError::NoDate);
        }
        Ok(date)
    }
}

/// A year of four digits, or of up to six after a sign.
fn year(
    input: &mut Input<'_>,
    padding: Padding,
    sign_is_mandatory: bool,
) -> Result<i32, ReadError> {
    let sign = input.sign(sign_is_mandatory)?;
    let magnitude = match sign {
        Some(_) if padding != Padding::Space => {
            let least = if padding == Padding::None { 1 } else { 4 };
            input.digits(least, 6)?
        }
        _ => input.padded(padding, 4)?,
    } as i32;
    Ok(if sign == Some(true) { -magnitude } else { magnitude })
}

/// A fraction of a second, in nanoseconds.
fn nanosecond(input: &mut Input<'_>, digits: SubsecondDigits) -> Result<u32, ReadError> {
    let (least, most) = match digits {
        SubsecondDigits::One => (1, 1),
        SubsecondDigits::Two => (2, 2),
        SubsecondDigits::Three => (3, 3),
        SubsecondDigits::Four => (4, 4),
        SubsecondDigits::Five => (5, 5),
        SubsecondDigits::Six => (6, 6),
        SubsecondDigits::Seven => (7, 7),
        SubsecondDigits::Eight => (8, 8),
        SubsecondDigits::Nine => (9, 9),
        SubsecondDigits::OneOrMore => (1, 9),
        _ => return Err(ReadError::NotRead),
    };
    let before = input.rest().len();
    let number = input.digits(least, most)?;
    let read = before - input.rest().len();
    Ok(number * 10_u32.pow(9 - read as u32))
}
