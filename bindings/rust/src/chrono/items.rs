//! Items of `chrono` for a description.

use alloc::vec::Vec;

use chrono::format::{Fixed, Item, Numeric, Pad};

use crate::component::Component;
use crate::description::FormatDescription;
use crate::modifier::{Padding, SubsecondDigits};
use crate::parts::Part;
use crate::unsupported::Unsupported;

/// The items that `chrono` writes as a formatter writes the description, of years from 0 to 9999: of
/// alternatives the first, and of a part that may be skipped nothing if its flag says so. Names
/// are read whatever their letters' case is.
///
/// # Errors
///
/// The first component that `chrono` lacks. Of a fraction of a second it has three, six and nine
/// digits after a point, or nine; of an offset hours and minutes one after another, or with a colon
/// between them.
pub fn to_items<'a>(description: &'a FormatDescription<'_>) -> Result<Vec<Item<'a>>, Unsupported> {
    let parts: Vec<Part<'a>> = description.parts().collect();
    let (mut items, mut rest) = (Vec::new(), parts.as_slice());
    while let Some(count) = push_front(&mut items, rest)? {
        rest = &rest[count..];
    }
    Ok(items)
}

/// Pushes the items of the parts in front, and answers how many parts that are: none at the end.
fn push_front<'a>(
    items: &mut Vec<Item<'a>>,
    parts: &[Part<'a>],
) -> Result<Option<usize>, Unsupported> {
    let count = match *parts {
        [] => return Ok(None),
        [Part::Component(hour), Part::Literal(":"), Part::Component(minute), ..]
            if is_offset(hour, minute) =>
        {
            items.push(Item::Fixed(Fixed::TimezoneOffsetColon));
            3
        }
        [Part::Component(hour), Part::Component(minute), ..] if is_offset(hour, minute) => {
            items.push(Item::Fixed(Fixed::TimezoneOffset));
            2
        }
        [Part::Literal(text), Part::Component(Component::Subsecond { digits }), ..] => {
            match (text.strip_suffix('.'), behind_point(digits)) {
                (Some(front), Some(fixed)) => {
                    items.extend((!front.is_empty()).then_some(Item::Literal(front)));
                    items.push(Item::Fixed(fixed));
                    2
                }
                _ => {
                    items.push(Item::Literal(text));
                    1
                }
            }
        }
        [Part::Literal(text), ..] => {
            items.push(Item::Literal(text));
            1
        }
        [Part::Component(component), ..] => {
            items.push(item(component)?);
            1
        }
    };
    Ok(Some(count))
}

/// Whether these are the hours and the minutes of an offset as `chrono` has them.
fn is_offset(hour: Component, minute: Component) -> bool {
    let padding = Padding::Zero;
    hour == Component::OffsetHour { sign_is_mandatory: true, padding }
        && minute == Component::OffsetMinute { padding }
}

fn behind_point(digits: SubsecondDigits) -> Option<Fixed> {
    match digits {
        SubsecondDigits::Three => Some(Fixed::Nanosecond3),
        SubsecondDigits::Six => Some(Fixed::Nanosecond6),
        SubsecondDigits::Nine => Some(Fixed::Nanosecond9),
        SubsecondDigits::One
        | SubsecondDigits::Two
        | SubsecondDigits::Four
        | SubsecondDigits::Five
        | SubsecondDigits::Seven
        | SubsecondDigits::Eight
        | SubsecondDigits::OneOrMore => None,
    }
}

fn item(component: Component) -> Result<Item<'static>, Unsupported> {
    use Component as C;
    let (number, padding) = match component {
        C::MonthShort { .. } => return Ok(Item::Fixed(Fixed::ShortMonthName)),
        C::MonthLong { .. } => return Ok(Item::Fixed(Fixed::LongMonthName)),
        C::WeekdayShort { .. } => return Ok(Item::Fixed(Fixed::ShortWeekdayName)),
        C::WeekdayLong { .. } => return Ok(Item::Fixed(Fixed::LongWeekdayName)),
        C::Period { is_uppercase: true, .. } => return Ok(Item::Fixed(Fixed::UpperAmPm)),
        C::Period { is_uppercase: false, .. } => return Ok(Item::Fixed(Fixed::LowerAmPm)),
        C::Day { padding } => (Numeric::Day, padding),
        C::MonthNumerical { padding } => (Numeric::Month, padding),
        C::Ordinal { padding } => (Numeric::Ordinal, padding),
        C::WeekdaySunday { one_indexed: false } => (Numeric::NumDaysFromSun, Padding::None),
        C::WeekdayMonday { one_indexed: true } => (Numeric::WeekdayFromMon, Padding::None),
        C::WeekNumberIso { padding } => (Numeric::IsoWeek, padding),
        C::WeekNumberSunday { padding } => (Numeric::WeekFromSun, padding),
        C::WeekNumberMonday { padding } => (Numeric::WeekFromMon, padding),
        C::CalendarYearFullExtendedRange { padding, sign_is_mandatory: false }
        | C::CalendarYearFullStandardRange { padding, sign_is_mandatory: false } => {
            (Numeric::Year, padding)
        }
        C::CalendarYearCenturyExtendedRange { padding, sign_is_mandatory: false }
        | C::CalendarYearCenturyStandardRange { padding, sign_is_mandatory: false } => {
            (Numeric::YearDiv100, padding)
        }
        C::IsoYearFullExtendedRange { padding, sign_is_mandatory: false }
        | C::IsoYearFullStandardRange { padding, sign_is_mandatory: false } => {
            (Numeric::IsoYear, padding)
        }
        C::IsoYearCenturyExtendedRange { padding, sign_is_mandatory: false }
        | C::IsoYearCenturyStandardRange { padding, sign_is_mandatory: false } => {
            (Numeric::IsoYearDiv100, padding)
        }
        C::CalendarYearLastTwo { padding } => (Numeric::YearMod100, padding),
        C::IsoYearLastTwo { padding } => (Numeric::IsoYearMod100, padding),
        C::Hour12 { padding } => (Numeric::Hour12, padding),
        C::Hour24 { padding } => (Numeric::Hour, padding),
        C::Minute { padding } => (Numeric::Minute, padding),
        C::Second { padding } => (Numeric::Second, padding),
        C::Subsecond { digits: SubsecondDigits::Nine } => (Numeric::Nanosecond, Padding::Zero),
        C::UnixTimestampSecond { sign_is_mandatory: false } => (Numeric::Timestamp, Padding::None),
        C::WeekdaySunday { one_indexed: true }
        | C::WeekdayMonday { one_indexed: false }
        | C::CalendarYearFullExtendedRange { .. }
        | C::CalendarYearFullStandardRange { .. }
        | C::CalendarYearCenturyExtendedRange { .. }
        | C::CalendarYearCenturyStandardRange { .. }
        | C::IsoYearFullExtendedRange { .. }
        | C::IsoYearFullStandardRange { .. }
        | C::IsoYearCenturyExtendedRange { .. }
        | C::IsoYearCenturyStandardRange { .. }
        | C::Subsecond { .. }
        | C::OffsetHour { .. }
        | C::OffsetMinute { .. }
        | C::OffsetSecond { .. }
        | C::UnixTimestampSecond { .. }
        | C::UnixTimestampMillisecond { .. }
        | C::UnixTimestampMicrosecond { .. }
        | C::UnixTimestampNanosecond { .. }
        | C::Ignore { .. }
        | C::End { .. } => return Err(Unsupported::new(component.kind().name())),
    };
    Ok(Item::Numeric(number, pad(padding)))
}

fn pad(padding: Padding) -> Pad {
    match padding {
        Padding::Space => Pad::Space,
        Padding::Zero => Pad::Zero,
        Padding::None => Pad::None,
    }
}
