//! Each component with each value of its modifiers, and how many bytes it is shown as at most.

use std::num::NonZeroU16;

use crate::rows::{Parse, Tree, VERSIONS, expect_items};
use timefd::{Component as C, DescriptionBuilder, Padding, SubsecondDigits, TrailingInput};

/// The text between the brackets, at most how many bytes, and the component.
type Row = (&'static str, usize, C);

const ZERO: Padding = Padding::Zero;
const SPACE: Padding = Padding::Space;
const NONE: Padding = Padding::None;

const DAYS: &[Row] = &[
    ("day", 2, C::Day { padding: ZERO }),
    ("day padding:space", 2, C::Day { padding: SPACE }),
    ("day padding:none", 2, C::Day { padding: NONE }),
    ("day padding:zero", 2, C::Day { padding: ZERO }),
    ("month", 2, C::MonthNumerical { padding: ZERO }),
    ("month repr:numerical padding:space", 2, C::MonthNumerical { padding: SPACE }),
    ("month repr:long", 9, C::MonthLong { case_sensitive: true }),
    ("month repr:long case_sensitive:false", 9, C::MonthLong { case_sensitive: false }),
    ("month case_sensitive:true repr:short", 3, C::MonthShort { case_sensitive: true }),
    ("month repr:short case_sensitive:false", 3, C::MonthShort { case_sensitive: false }),
    ("ordinal padding:none", 3, C::Ordinal { padding: NONE }),
    ("weekday", 9, C::WeekdayLong { case_sensitive: true }),
    ("weekday repr:long case_sensitive:false", 9, C::WeekdayLong { case_sensitive: false }),
    ("weekday repr:short", 3, C::WeekdayShort { case_sensitive: true }),
    ("weekday repr:sunday", 1, C::WeekdaySunday { one_indexed: true }),
    ("weekday repr:sunday one_indexed:false", 1, C::WeekdaySunday { one_indexed: false }),
    ("weekday repr:monday one_indexed:true", 1, C::WeekdayMonday { one_indexed: true }),
    ("weekday repr:monday one_indexed:false", 1, C::WeekdayMonday { one_indexed: false }),
    ("week_number", 2, C::WeekNumberIso { padding: ZERO }),
    ("week_number repr:iso padding:none", 2, C::WeekNumberIso { padding: NONE }),
    ("week_number repr:sunday", 2, C::WeekNumberSunday { padding: ZERO }),
    ("week_number repr:monday padding:space", 2, C::WeekNumberMonday { padding: SPACE }),
];

const YEARS: &[Row] = &[
    (
        "year range:extended",
        7,
        C::CalendarYearFullExtendedRange { padding: ZERO, sign_is_mandatory: false },
    ),
    (
        "year range:standard sign:mandatory",
        5,
        C::CalendarYearFullStandardRange { padding: ZERO, sign_is_mandatory: true },
    ),
    (
        "year repr:century range:extended padding:space",
        5,
        C::CalendarYearCenturyExtendedRange { padding: SPACE, sign_is_mandatory: false },
    ),
    (
        "year repr:century range:standard sign:automatic",
        3,
        C::CalendarYearCenturyStandardRange { padding: ZERO, sign_is_mandatory: false },
    ),
    (
        "year base:iso_week range:extended padding:none",
        7,
        C::IsoYearFullExtendedRange { padding: NONE, sign_is_mandatory: false },
    ),
    (
        "year base:iso_week repr:full range:standard",
        5,
        C::IsoYearFullStandardRange { padding: ZERO, sign_is_mandatory: false },
    ),
    (
        "year base:iso_week repr:century range:extended sign:mandatory",
        5,
        C::IsoYearCenturyExtendedRange { padding: ZERO, sign_is_mandatory: true },
    ),
    (
        "year base:iso_week repr:century range:standard",
        3,
        C::IsoYearCenturyStandardRange { padding: ZERO, sign_is_mandatory: false },
    ),
    ("year repr:last_two", 2, C::CalendarYearLastTwo { padding: ZERO }),
    ("year repr:last_two base:calendar padding:none", 2, C::CalendarYearLastTwo { padding: NONE }),
    ("year base:iso_week repr:last_two", 2, C::IsoYearLastTwo { padding: ZERO }),
];

const CLOCKS: &[Row] = &[
    ("hour", 2, C::Hour24 { padding: ZERO }),
    ("hour repr:24 padding:space", 2, C::Hour24 { padding: SPACE }),
    ("hour repr:12 padding:none", 2, C::Hour12 { padding: NONE }),
    ("minute padding:none", 2, C::Minute { padding: NONE }),
    ("period", 2, C::Period { is_uppercase: true, case_sensitive: true }),
    ("period case:lower", 2, C::Period { is_uppercase: false, case_sensitive: true }),
    (
        "period case:upper case_sensitive:false",
        2,
        C::Period { is_uppercase: true, case_sensitive: false },
    ),
    ("second padding:space", 2, C::Second { padding: SPACE }),
    ("subsecond", 9, C::Subsecond { digits: SubsecondDigits::OneOrMore }),
    ("subsecond digits:1", 1, C::Subsecond { digits: SubsecondDigits::One }),
    ("subsecond digits:2", 2, C::Subsecond { digits: SubsecondDigits::Two }),
    ("subsecond digits:3", 3, C::Subsecond { digits: SubsecondDigits::Three }),
    ("subsecond digits:4", 4, C::Subsecond { digits: SubsecondDigits::Four }),
    ("subsecond digits:5", 5, C::Subsecond { digits: SubsecondDigits::Five }),
    ("subsecond digits:6", 6, C::Subsecond { digits: SubsecondDigits::Six }),
    ("subsecond digits:7", 7, C::Subsecond { digits: SubsecondDigits::Seven }),
    ("subsecond digits:8", 8, C::Subsecond { digits: SubsecondDigits::Eight }),
    ("subsecond digits:9", 9, C::Subsecond { digits: SubsecondDigits::Nine }),
    ("subsecond digits:1+", 9, C::Subsecond { digits: SubsecondDigits::OneOrMore }),
    ("offset_hour", 3, C::OffsetHour { sign_is_mandatory: false, padding: ZERO }),
    (
        "offset_hour sign:mandatory padding:none",
        3,
        C::OffsetHour { sign_is_mandatory: true, padding: NONE },
    ),
    ("offset_minute padding:space", 2, C::OffsetMinute { padding: SPACE }),
    ("offset_second", 2, C::OffsetSecond { padding: ZERO }),
];

const OTHERS: &[Row] = &[
    ("unix_timestamp", 15, C::UnixTimestampSecond { sign_is_mandatory: false }),
    ("unix_timestamp precision:second", 15, C::UnixTimestampSecond { sign_is_mandatory: false }),
    (
        "unix_timestamp precision:millisecond sign:mandatory",
        18,
        C::UnixTimestampMillisecond { sign_is_mandatory: true },
    ),
    (
        "unix_timestamp precision:microsecond",
        21,
        C::UnixTimestampMicrosecond { sign_is_mandatory: false },
    ),
    (
        "unix_timestamp precision:nanosecond",
        24,
        C::UnixTimestampNanosecond { sign_is_mandatory: false },
    ),
    ("ignore count:1", 0, C::Ignore { count: NonZeroU16::MIN }),
    ("ignore count:65535", 0, C::Ignore { count: NonZeroU16::MAX }),
    ("end", 0, C::End { trailing_input: TrailingInput::Prohibit }),
    ("end trailing_input:discard", 0, C::End { trailing_input: TrailingInput::Discard }),
];

/// All of these texts mean the same in each version: the years name their range.
#[test]
fn each_component_is_as_expected() {
    for (text, bytes, component) in [DAYS, YEARS, CLOCKS, OTHERS].concat() {
        for language in VERSIONS {
            let row = format!("[{text}] in {language:?}");
            let text = format!("[{text}]");
            let description = language.parse(&text).expect(&row);
            expect_items(&row, description.items(), &[Tree::Component(component)]);
            assert_eq!(description.max_bytes_needed(), bytes, "{row}");
        }
    }
}

/// The component alone knows its bytes too.
#[test]
fn each_component_knows_its_bytes() {
    for (text, bytes, component) in [DAYS, YEARS, CLOCKS, OTHERS].concat() {
        assert_eq!(component.max_bytes_needed(), bytes, "[{text}]");
    }
}

/// A builder writes its text, which is no longer than that of the row.
#[test]
fn each_component_is_built() {
    for (text, _, component) in [DAYS, YEARS, CLOCKS, OTHERS].concat() {
        let row = format!("[{text}]");
        let built = DescriptionBuilder::new().component(component).build().expect(&row);
        expect_items(&row, built.items(), &[Tree::Component(component)]);
        assert!(built.text().len() <= row.len(), "{row}: {}", built.text());
    }
}
