//! Items of `time` for a description.

use alloc::format;
use alloc::vec::Vec;

use crate::component::Component as Ours;
use crate::description::FormatDescription;
use crate::modifier::{Padding, SubsecondDigits, TrailingInput};
use crate::parts::Part;
use time::format_description::modifier::{self, MonthRepr, WeekNumberRepr, WeekdayRepr, YearRepr};
use time::format_description::{self, Component as Theirs, FormatItem};

use crate::unsupported::Unsupported;

/// The items that `time` writes as a formatter writes the description: of alternatives the first,
/// and of a part that may be skipped nothing if its flag says so.
///
/// # Errors
///
/// The first component that the `time` beside this crate lacks: 0.3.9 lacks `ignore`,
/// `unix_timestamp`, `end`, and centuries.
pub fn to_items<'a>(
    description: &'a FormatDescription<'_>,
) -> Result<Vec<FormatItem<'a>>, Unsupported> {
    let items = description.parts().map(|part| match part {
        Part::Literal(text) => Ok(FormatItem::Literal(text.as_bytes())),
        Part::Component(component) => Ok(FormatItem::Component(theirs(component)?)),
    });
    items.collect()
}

/// A modifier of `time` with some fields set: it can't be written as a literal outside of `time`.
macro_rules! set {
    ($kind:ident { $($field:ident: $value:expr),* $(,)? }) => {{
        let mut made = modifier::$kind::default();
        $(made.$field = $value;)*
        Theirs::$kind(made)
    }};
}

fn theirs(component: Ours) -> Result<Theirs, Unsupported> {
    Ok(match component {
        Ours::Hour12 { padding } => set!(Hour { padding: filled(padding), is_12_hour_clock: true }),
        Ours::Hour24 { padding } => {
            set!(Hour { padding: filled(padding), is_12_hour_clock: false })
        }
        Ours::Minute { padding } => set!(Minute { padding: filled(padding) }),
        Ours::Period { is_uppercase, case_sensitive } => {
            set!(Period { is_uppercase: is_uppercase, case_sensitive: case_sensitive })
        }
        Ours::Second { padding } => set!(Second { padding: filled(padding) }),
        Ours::Subsecond { digits } => set!(Subsecond { digits: shown(digits) }),
        Ours::OffsetHour { sign_is_mandatory, padding } => {
            set!(OffsetHour { sign_is_mandatory: sign_is_mandatory, padding: filled(padding) })
        }
        Ours::OffsetMinute { padding } => set!(OffsetMinute { padding: filled(padding) }),
        Ours::OffsetSecond { padding } => set!(OffsetSecond { padding: filled(padding) }),
        Ours::Ignore { count } => return parsed(&format!("[ignore count:{count}]"), "ignore"),
        Ours::UnixTimestampSecond { sign_is_mandatory } => {
            return timestamp("second", sign_is_mandatory);
        }
        Ours::UnixTimestampMillisecond { sign_is_mandatory } => {
            return timestamp("millisecond", sign_is_mandatory);
        }
        Ours::UnixTimestampMicrosecond { sign_is_mandatory } => {
            return timestamp("microsecond", sign_is_mandatory);
        }
        Ours::UnixTimestampNanosecond { sign_is_mandatory } => {
            return timestamp("nanosecond", sign_is_mandatory);
        }
        Ours::End { trailing_input: TrailingInput::Prohibit } => return parsed("[end]", "end"),
        Ours::End { trailing_input: TrailingInput::Discard } => {
            return parsed("[end trailing_input:discard]", "end trailing_input:discard");
        }
        of_a_date => return date(of_a_date),
    })
}

fn date(component: Ours) -> Result<Theirs, Unsupported> {
    let week = |padding, repr| set!(WeekNumber { padding: filled(padding), repr: repr });
    Ok(match component {
        Ours::Day { padding } => set!(Day { padding: filled(padding) }),
        Ours::Ordinal { padding } => set!(Ordinal { padding: filled(padding) }),
        Ours::MonthNumerical { padding } => {
            set!(Month { padding: filled(padding), repr: MonthRepr::Numerical })
        }
        Ours::MonthLong { case_sensitive } => {
            set!(Month { repr: MonthRepr::Long, case_sensitive: case_sensitive })
        }
        Ours::MonthShort { case_sensitive } => {
            set!(Month { repr: MonthRepr::Short, case_sensitive: case_sensitive })
        }
        Ours::WeekdayLong { case_sensitive } => {
            set!(Weekday { repr: WeekdayRepr::Long, case_sensitive: case_sensitive })
        }
        Ours::WeekdayShort { case_sensitive } => {
            set!(Weekday { repr: WeekdayRepr::Short, case_sensitive: case_sensitive })
        }
        Ours::WeekdaySunday { one_indexed } => {
            set!(Weekday { repr: WeekdayRepr::Sunday, one_indexed: one_indexed })
        }
        Ours::WeekdayMonday { one_indexed } => {
            set!(Weekday { repr: WeekdayRepr::Monday, one_indexed: one_indexed })
        }
        Ours::WeekNumberIso { padding } => week(padding, WeekNumberRepr::Iso),
        Ours::WeekNumberSunday { padding } => week(padding, WeekNumberRepr::Sunday),
        Ours::WeekNumberMonday { padding } => week(padding, WeekNumberRepr::Monday),
        of_a_year => return year(of_a_year),
    })
}

fn year(component: Ours) -> Result<Theirs, Unsupported> {
    let (padding, sign_is_mandatory, repr, iso_week_based) = match component {
        Ours::CalendarYearFullExtendedRange { padding, sign_is_mandatory }
        | Ours::CalendarYearFullStandardRange { padding, sign_is_mandatory } => {
            (padding, sign_is_mandatory, YearRepr::Full, false)
        }
        Ours::IsoYearFullExtendedRange { padding, sign_is_mandatory }
        | Ours::IsoYearFullStandardRange { padding, sign_is_mandatory } => {
            (padding, sign_is_mandatory, YearRepr::Full, true)
        }
        Ours::CalendarYearLastTwo { padding } => (padding, false, YearRepr::LastTwo, false),
        Ours::IsoYearLastTwo { padding } => (padding, false, YearRepr::LastTwo, true),
        of_a_century => return century(of_a_century),
    };
    Ok(set!(Year {
        padding: filled(padding),
        repr: repr,
        iso_week_based: iso_week_based,
        sign_is_mandatory: sign_is_mandatory,
    }))
}

fn century(component: Ours) -> Result<Theirs, Unsupported> {
    let (padding, sign_is_mandatory, range, base) = match component {
        Ours::CalendarYearCenturyExtendedRange { padding, sign_is_mandatory } => {
            (padding, sign_is_mandatory, "extended", "calendar")
        }
        Ours::CalendarYearCenturyStandardRange { padding, sign_is_mandatory } => {
            (padding, sign_is_mandatory, "standard", "calendar")
        }
        Ours::IsoYearCenturyExtendedRange { padding, sign_is_mandatory } => {
            (padding, sign_is_mandatory, "extended", "iso_week")
        }
        Ours::IsoYearCenturyStandardRange { padding, sign_is_mandatory } => {
            (padding, sign_is_mandatory, "standard", "iso_week")
        }
        other => return Err(Unsupported::new(other.kind().name())),
    };
    let padding = match padding {
        Padding::Space => "space",
        Padding::Zero => "zero",
        Padding::None => "none",
    };
    let (sign, repr) = (sign(sign_is_mandatory), "year repr:century");
    parsed(&format!("[{repr} padding:{padding} range:{range} base:{base} sign:{sign}]"), repr)
}

fn timestamp(precision: &str, sign_is_mandatory: bool) -> Result<Theirs, Unsupported> {
    let sign = sign(sign_is_mandatory);
    parsed(&format!("[unix_timestamp precision:{precision} sign:{sign}]"), "unix_timestamp")
}

fn sign(is_mandatory: bool) -> &'static str {
    if is_mandatory { "mandatory" } else { "automatic" }
}

/// The component of a text by itself. Those that 0.3.9 lacks can't be named here, and newer versions
/// read them.
fn parsed(text: &str, part: &'static str) -> Result<Theirs, Unsupported> {
    match format_description::parse(text).as_deref() {
        Ok([FormatItem::Component(component)]) => Ok(*component),
        _ => Err(Unsupported::new(part)),
    }
}

fn filled(padding: Padding) -> modifier::Padding {
    match padding {
        Padding::Space => modifier::Padding::Space,
        Padding::Zero => modifier::Padding::Zero,
        Padding::None => modifier::Padding::None,
    }
}

fn shown(digits: SubsecondDigits) -> modifier::SubsecondDigits {
    match digits {
        SubsecondDigits::One => modifier::SubsecondDigits::One,
        SubsecondDigits::Two => modifier::SubsecondDigits::Two,
        SubsecondDigits::Three => modifier::SubsecondDigits::Three,
        SubsecondDigits::Four => modifier::SubsecondDigits::Four,
        SubsecondDigits::Five => modifier::SubsecondDigits::Five,
        SubsecondDigits::Six => modifier::SubsecondDigits::Six,
        SubsecondDigits::Seven => modifier::SubsecondDigits::Seven,
        SubsecondDigits::Eight => modifier::SubsecondDigits::Eight,
        SubsecondDigits::Nine => modifier::SubsecondDigits::Nine,
        SubsecondDigits::OneOrMore => modifier::SubsecondDigits::OneOrMore,
    }
}
