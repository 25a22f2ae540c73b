//! The numbers that a node has for a component. A description is written by the library's own nodes, so
//! only tests want these.

use crate::component::Component;
use crate::modifier::{Padding, boolean_number};
use crate::sys::{COMPONENT, RawNode};

/// The node of a component.
pub(crate) fn component(component: Component) -> RawNode {
    match component {
        Component::Day { padding } => padded(1, padding),
        Component::MonthShort { case_sensitive } => named(2, case_sensitive),
        Component::MonthLong { case_sensitive } => named(3, case_sensitive),
        Component::MonthNumerical { padding } => padded(4, padding),
        Component::Ordinal { padding } => padded(5, padding),
        Component::WeekdayShort { case_sensitive } => named(6, case_sensitive),
        Component::WeekdayLong { case_sensitive } => named(7, case_sensitive),
        Component::WeekdaySunday { one_indexed } => indexed(8, one_indexed),
        Component::WeekdayMonday { one_indexed } => indexed(9, one_indexed),
        Component::WeekNumberIso { padding } => padded(10, padding),
        Component::WeekNumberSunday { padding } => padded(11, padding),
        Component::WeekNumberMonday { padding } => padded(12, padding),
        Component::CalendarYearFullExtendedRange { padding, sign_is_mandatory } => {
            signed(13, padding, sign_is_mandatory)
        }
        Component::CalendarYearFullStandardRange { padding, sign_is_mandatory } => {
            signed(14, padding, sign_is_mandatory)
        }
        Component::CalendarYearCenturyExtendedRange { padding, sign_is_mandatory } => {
            signed(15, padding, sign_is_mandatory)
        }
        Component::CalendarYearCenturyStandardRange { padding, sign_is_mandatory } => {
            signed(16, padding, sign_is_mandatory)
        }
        Component::IsoYearFullExtendedRange { padding, sign_is_mandatory } => {
            signed(17, padding, sign_is_mandatory)
        }
        Component::IsoYearFullStandardRange { padding, sign_is_mandatory } => {
            signed(18, padding, sign_is_mandatory)
        }
        Component::IsoYearCenturyExtendedRange { padding, sign_is_mandatory } => {
            signed(19, padding, sign_is_mandatory)
        }
        Component::IsoYearCenturyStandardRange { padding, sign_is_mandatory } => {
            signed(20, padding, sign_is_mandatory)
        }
        Component::CalendarYearLastTwo { padding } => padded(21, padding),
        Component::IsoYearLastTwo { padding } => padded(22, padding),
        Component::Hour12 { padding } => padded(23, padding),
        Component::Hour24 { padding } => padded(24, padding),
        Component::Minute { padding } => padded(25, padding),
        Component::Period { is_uppercase, case_sensitive } => {
            period(26, is_uppercase, case_sensitive)
        }
        Component::Second { padding } => padded(27, padding),
        Component::Subsecond { digits } => RawNode { digits: digits.number(), ..numbered(28) },
        Component::OffsetHour { padding, sign_is_mandatory } => {
            signed(29, padding, sign_is_mandatory)
        }
        Component::OffsetMinute { padding } => padded(30, padding),
        Component::OffsetSecond { padding } => padded(31, padding),
        Component::Ignore { count } => RawNode { ignored: count.get(), ..numbered(32) },
        Component::UnixTimestampSecond { sign_is_mandatory } => timestamp(33, sign_is_mandatory),
        Component::UnixTimestampMillisecond { sign_is_mandatory } => {
            timestamp(34, sign_is_mandatory)
        }
        Component::UnixTimestampMicrosecond { sign_is_mandatory } => {
            timestamp(35, sign_is_mandatory)
        }
        Component::UnixTimestampNanosecond { sign_is_mandatory } => {
            timestamp(36, sign_is_mandatory)
        }
        Component::End { trailing_input } => {
            RawNode { trailing_input: trailing_input.number(), ..numbered(37) }
        }
    }
}

fn numbered(number: u8) -> RawNode {
    RawNode { what: COMPONENT, component: number, ..RawNode::default() }
}

fn padded(number: u8, padding: Padding) -> RawNode {
    RawNode { padding: padding.number(), ..numbered(number) }
}

fn timestamp(number: u8, sign_is_mandatory: bool) -> RawNode {
    RawNode { sign_is_mandatory: boolean_number(sign_is_mandatory), ..numbered(number) }
}

fn signed(number: u8, padding: Padding, sign_is_mandatory: bool) -> RawNode {
    RawNode { padding: padding.number(), ..timestamp(number, sign_is_mandatory) }
}

fn named(number: u8, case_sensitive: bool) -> RawNode {
    RawNode { case_sensitive: boolean_number(case_sensitive), ..numbered(number) }
}

fn period(number: u8, is_uppercase: bool, case_sensitive: bool) -> RawNode {
    RawNode { is_uppercase: boolean_number(is_uppercase), ..named(number, case_sensitive) }
}

fn indexed(number: u8, one_indexed: bool) -> RawNode {
    RawNode { one_indexed: boolean_number(one_indexed), ..numbered(number) }
}
