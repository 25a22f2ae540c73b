//! What stands between the brackets of a component, in the language of version 3.

use alloc::format;
use alloc::string::{String, ToString as _};
use core::num::NonZeroU16;

use crate::component::Component;
use crate::modifier::{Padding, SubsecondDigits, TrailingInput};

/// A component's name and those modifiers that aren't left at their defaults.
pub(crate) fn words(component: Component) -> String {
    match component {
        Component::Day { padding } => padded("day", padding),
        Component::MonthShort { case_sensitive } => named("month repr:short", case_sensitive),
        Component::MonthLong { case_sensitive } => named("month repr:long", case_sensitive),
        Component::MonthNumerical { padding } => padded("month", padding),
        Component::Ordinal { padding } => padded("ordinal", padding),
        Component::WeekdayShort { case_sensitive } => named("weekday repr:short", case_sensitive),
        Component::WeekdayLong { case_sensitive } => named("weekday", case_sensitive),
        Component::WeekdaySunday { one_indexed } => indexed("weekday repr:sunday", one_indexed),
        Component::WeekdayMonday { one_indexed } => indexed("weekday repr:monday", one_indexed),
        Component::WeekNumberIso { padding } => padded("week_number", padding),
        Component::WeekNumberSunday { padding } => padded("week_number repr:sunday", padding),
        Component::WeekNumberMonday { padding } => padded("week_number repr:monday", padding),
        Component::CalendarYearFullExtendedRange { padding, sign_is_mandatory } => {
            signed("year range:extended", padding, sign_is_mandatory)
        }
        Component::CalendarYearFullStandardRange { padding, sign_is_mandatory } => {
            signed("year", padding, sign_is_mandatory)
        }
        Component::CalendarYearCenturyExtendedRange { padding, sign_is_mandatory } => {
            signed("year repr:century range:extended", padding, sign_is_mandatory)
        }
        Component::CalendarYearCenturyStandardRange { padding, sign_is_mandatory } => {
            signed("year repr:century", padding, sign_is_mandatory)
        }
        Component::IsoYearFullExtendedRange { padding, sign_is_mandatory } => {
            signed("year base:iso_week range:extended", padding, sign_is_mandatory)
        }
        Component::IsoYearFullStandardRange { padding, sign_is_mandatory } => {
            signed("year base:iso_week", padding, sign_is_mandatory)
        }
        Component::IsoYearCenturyExtendedRange { padding, sign_is_mandatory } => {
            signed("year base:iso_week repr:century range:extended", padding, sign_is_mandatory)
        }
        Component::IsoYearCenturyStandardRange { padding, sign_is_mandatory } => {
            signed("year base:iso_week repr:century", padding, sign_is_mandatory)
        }
        Component::CalendarYearLastTwo { padding } => padded("year repr:last_two", padding),
        Component::IsoYearLastTwo { padding } => {
            padded("year base:iso_week repr:last_two", padding)
        }
        Component::Hour12 { padding } => padded("hour repr:12", padding),
        Component::Hour24 { padding } => padded("hour", padding),
        Component::Minute { padding } => padded("minute", padding),
        Component::Period { is_uppercase, case_sensitive } => period(is_uppercase, case_sensitive),
        Component::Second { padding } => padded("second", padding),
        Component::Subsecond { digits } => subsecond(digits),
        Component::OffsetHour { padding, sign_is_mandatory } => {
            signed("offset_hour", padding, sign_is_mandatory)
        }
        Component::OffsetMinute { padding } => padded("offset_minute", padding),
        Component::OffsetSecond { padding } => padded("offset_second", padding),
        Component::Ignore { count } => ignore(count),
        Component::UnixTimestampSecond { sign_is_mandatory } => {
            timestamp("unix_timestamp", sign_is_mandatory)
        }
        Component::UnixTimestampMillisecond { sign_is_mandatory } => {
            timestamp("unix_timestamp precision:millisecond", sign_is_mandatory)
        }
        Component::UnixTimestampMicrosecond { sign_is_mandatory } => {
            timestamp("unix_timestamp precision:microsecond", sign_is_mandatory)
        }
        Component::UnixTimestampNanosecond { sign_is_mandatory } => {
            timestamp("unix_timestamp precision:nanosecond", sign_is_mandatory)
        }
        Component::End { trailing_input } => end(trailing_input),
    }
}

fn padded(name: &str, padding: Padding) -> String {
    match padding {
        Padding::Space => format!("{name} padding:space"),
        Padding::Zero => name.to_string(),
        Padding::None => format!("{name} padding:none"),
    }
}

fn signed(name: &str, padding: Padding, sign_is_mandatory: bool) -> String {
    with_sign(padded(name, padding), sign_is_mandatory)
}

fn timestamp(name: &str, sign_is_mandatory: bool) -> String {
    with_sign(name.to_string(), sign_is_mandatory)
}

fn with_sign(words: String, sign_is_mandatory: bool) -> String {
    if sign_is_mandatory { words + " sign:mandatory" } else { words }
}

fn named(name: &str, case_sensitive: bool) -> String {
    if case_sensitive { name.to_string() } else { format!("{name} case_sensitive:false") }
}

fn period(is_uppercase: bool, case_sensitive: bool) -> String {
    named(if is_uppercase { "period" } else { "period case:lower" }, case_sensitive)
}

fn indexed(name: &str, one_indexed: bool) -> String {
    if one_indexed { name.to_string() } else { format!("{name} one_indexed:false") }
}

fn subsecond(digits: SubsecondDigits) -> String {
    match digits {
        SubsecondDigits::OneOrMore => "subsecond".to_string(),
        digits => format!("subsecond digits:{}", digits.at_most()),
    }
}

fn ignore(count: NonZeroU16) -> String {
    format!("ignore count:{count}")
}

fn end(trailing_input: TrailingInput) -> String {
    match trailing_input {
        TrailingInput::Prohibit => "end".to_string(),
        TrailingInput::Discard => "end trailing_input:discard".to_string(),
    }
}
