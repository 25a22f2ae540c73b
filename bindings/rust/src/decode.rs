//! Components from the numbers of a node. They are those of the header, where the components are
//! `TIMEFD_DAY`, 1, to `TIMEFD_END`, 37.

use core::num::NonZeroU16;

use crate::component::Component;
use crate::modifier::{Padding, SubsecondDigits, TrailingInput, boolean};
use crate::sys::RawNode;

/// The component of a node. `None` if the numbers name none, which the library never answers.
pub(crate) fn component(node: &RawNode) -> Option<Component> {
    if node.component <= 22 { of_date(node) } else { of_time(node) }
}

/// The parts of a date.
fn of_date(node: &RawNode) -> Option<Component> {
    let padding = || Padding::from_number(node.padding);
    let case_sensitive = || boolean(node.case_sensitive);
    let one_indexed = || boolean(node.one_indexed);
    Some(match node.component {
        1 => Component::Day { padding: padding()? },
        2 => Component::MonthShort { case_sensitive: case_sensitive()? },
        3 => Component::MonthLong { case_sensitive: case_sensitive()? },
        4 => Component::MonthNumerical { padding: padding()? },
        5 => Component::Ordinal { padding: padding()? },
        6 => Component::WeekdayShort { case_sensitive: case_sensitive()? },
        7 => Component::WeekdayLong { case_sensitive: case_sensitive()? },
        8 => Component::WeekdaySunday { one_indexed: one_indexed()? },
        9 => Component::WeekdayMonday { one_indexed: one_indexed()? },
        10 => Component::WeekNumberIso { padding: padding()? },
        11 => Component::WeekNumberSunday { padding: padding()? },
        12 => Component::WeekNumberMonday { padding: padding()? },
        13..=20 => return year(node),
        21 => Component::CalendarYearLastTwo { padding: padding()? },
        22 => Component::IsoYearLastTwo { padding: padding()? },
        _ => return None,
    })
}

/// The years that may have a sign.
fn year(node: &RawNode) -> Option<Component> {
    let padding = Padding::from_number(node.padding)?;
    let sign_is_mandatory = boolean(node.sign_is_mandatory)?;
    Some(match node.component {
        13 => Component::CalendarYearFullExtendedRange { padding, sign_is_mandatory },
        14 => Component::CalendarYearFullStandardRange { padding, sign_is_mandatory },
        15 => Component::CalendarYearCenturyExtendedRange { padding, sign_is_mandatory },
        16 => Component::CalendarYearCenturyStandardRange { padding, sign_is_mandatory },
        17 => Component::IsoYearFullExtendedRange { padding, sign_is_mandatory },
        18 => Component::IsoYearFullStandardRange { padding, sign_is_mandatory },
        19 => Component::IsoYearCenturyExtendedRange { padding, sign_is_mandatory },
        20 => Component::IsoYearCenturyStandardRange { padding, sign_is_mandatory },
        _ => return None,
    })
}

/// The parts of a time and of its offset, timestamps, and what stands for no part.
fn of_time(node: &RawNode) -> Option<Component> {
    let padding = || Padding::from_number(node.padding);
    let sign_is_mandatory = || boolean(node.sign_is_mandatory);
    Some(match node.component {
        23 => Component::Hour12 { padding: padding()? },
        24 => Component::Hour24 { padding: padding()? },
        25 => Component::Minute { padding: padding()? },
        26 => Component::Period {
            is_uppercase: boolean(node.is_uppercase)?,
            case_sensitive: boolean(node.case_sensitive)?,
        },
        27 => Component::Second { padding: padding()? },
        28 => Component::Subsecond { digits: SubsecondDigits::from_number(node.digits)? },
        29 => {
            Component::OffsetHour { sign_is_mandatory: sign_is_mandatory()?, padding: padding()? }
        }
        30 => Component::OffsetMinute { padding: padding()? },
        31 => Component::OffsetSecond { padding: padding()? },
        32 => Component::Ignore { count: NonZeroU16::new(node.ignored)? },
        33 => Component::UnixTimestampSecond { sign_is_mandatory: sign_is_mandatory()? },
        34 => Component::UnixTimestampMillisecond { sign_is_mandatory: sign_is_mandatory()? },
        35 => Component::UnixTimestampMicrosecond { sign_is_mandatory: sign_is_mandatory()? },
        36 => Component::UnixTimestampNanosecond { sign_is_mandatory: sign_is_mandatory()? },
        37 => Component::End { trailing_input: TrailingInput::from_number(node.trailing_input)? },
        _ => return None,
    })
}

#[cfg(test)]
#[path = "decode_tests.rs"]
mod tests;
