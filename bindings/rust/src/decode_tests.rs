//! The numbers of every component.

use std::num::NonZeroU16;

use super::component;
use crate::component::Component as C;
use crate::encode;
use crate::modifier::{Padding, SubsecondDigits, TrailingInput};
use crate::sys::RawNode;

/// A node that has every modifier: padded by spaces, `digits:3`, 5 bytes ignored, the booleans
/// false where not said.
fn node(component: u8, is_true: bool) -> RawNode {
    let boolean = 1 + u8::from(is_true);
    RawNode {
        what: 2,
        component,
        padding: 1,
        sign_is_mandatory: boolean,
        case_sensitive: boolean,
        one_indexed: boolean,
        is_uppercase: boolean,
        digits: 3,
        trailing_input: 2,
        ignored: 5,
        ..RawNode::default()
    }
}

/// The components in the order of the header, with the modifiers of such a node.
fn components(is_true: bool) -> [C; 37] {
    let padding = Padding::Space;
    let (sign_is_mandatory, case_sensitive) = (is_true, is_true);
    let (one_indexed, is_uppercase) = (is_true, is_true);
    [
        C::Day { padding },
        C::MonthShort { case_sensitive },
        C::MonthLong { case_sensitive },
        C::MonthNumerical { padding },
        C::Ordinal { padding },
        C::WeekdayShort { case_sensitive },
        C::WeekdayLong { case_sensitive },
        C::WeekdaySunday { one_indexed },
        C::WeekdayMonday { one_indexed },
        C::WeekNumberIso { padding },
        C::WeekNumberSunday { padding },
        C::WeekNumberMonday { padding },
        C::CalendarYearFullExtendedRange { padding, sign_is_mandatory },
        C::CalendarYearFullStandardRange { padding, sign_is_mandatory },
        C::CalendarYearCenturyExtendedRange { padding, sign_is_mandatory },
        C::CalendarYearCenturyStandardRange { padding, sign_is_mandatory },
        C::IsoYearFullExtendedRange { padding, sign_is_mandatory },
        C::IsoYearFullStandardRange { padding, sign_is_mandatory },
        C::IsoYearCenturyExtendedRange { padding, sign_is_mandatory },
        C::IsoYearCenturyStandardRange { padding, sign_is_mandatory },
        C::CalendarYearLastTwo { padding },
        C::IsoYearLastTwo { padding },
        C::Hour12 { padding },
        C::Hour24 { padding },
        C::Minute { padding },
        C::Period { is_uppercase, case_sensitive },
        C::Second { padding },
        C::Subsecond { digits: SubsecondDigits::Three },
        C::OffsetHour { sign_is_mandatory, padding },
        C::OffsetMinute { padding },
        C::OffsetSecond { padding },
        C::Ignore { count: NonZeroU16::new(5).expect("5 is not 0") },
        C::UnixTimestampSecond { sign_is_mandatory },
        C::UnixTimestampMillisecond { sign_is_mandatory },
        C::UnixTimestampMicrosecond { sign_is_mandatory },
        C::UnixTimestampNanosecond { sign_is_mandatory },
        C::End { trailing_input: TrailingInput::Discard },
    ]
}

#[test]
fn every_component_has_its_number() {
    for is_true in [false, true] {
        for (number, expected) in (1..).zip(components(is_true)) {
            assert_eq!(component(&node(number, is_true)), Some(expected));
        }
    }
}

#[test]
fn every_component_has_the_numbers_that_it_came_of() {
    for is_true in [false, true] {
        for (number, component) in (1..).zip(components(is_true)) {
            let node = encode::component(component);
            assert_eq!((node.what, node.component), (2, number));
            assert_eq!(super::component(&node), Some(component));
        }
    }
}

#[test]
fn other_numbers_are_none() {
    for number in [0, 38, u8::MAX] {
        assert_eq!(component(&node(number, true)), None);
    }
    let unmodified = RawNode { what: 2, ..RawNode::default() };
    for number in 1..=37 {
        assert_eq!(component(&RawNode { component: number, ..unmodified }), None);
    }
    assert_eq!(component(&RawNode { component: 32, ignored: 0, ..unmodified }), None);
}
