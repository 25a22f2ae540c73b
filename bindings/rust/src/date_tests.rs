//! Tests of days: what Python's `datetime` says of them, and what the library refuses.

use super::Date;
use crate::format::{FormatError, format};
use crate::moment::Moment;
use crate::version::Version;

/// Years, months and days, and how many days they are after 1970-01-01. Those beyond the years of
/// Python's are its by whole times of 400 years.
const DAYS: &[(i32, u8, u8, i64)] = &[
    (1970, 1, 1, 0),
    (1969, 12, 31, -1),
    (2000, 2, 29, 11016),
    (2026, 11, 23, 20780),
    (1900, 3, 1, -25508),
    (1, 1, 1, -719162),
    (9999, 12, 31, 2932896),
    (2024, 12, 31, 20088),
    (1600, 2, 29, -135081),
    (2100, 2, 28, 47540),
    (999999, 12, 31, 364522971),
    (-999999, 1, 1, -365961662),
    (-1, 2, 28, -719835),
    (0, 2, 29, -719469),
    (12345, 6, 7, 3789548),
];

#[test]
fn days_are_counted() {
    for &(year, month, day, days) in DAYS {
        let date = Date { year, month, day };
        assert_eq!(date.unix_days(), days, "{date:?}");
        assert_eq!(Date::of_unix_days(days), Some(date));
    }
    assert_eq!(Date::of_unix_days(364522972), None);
    assert_eq!(Date::of_unix_days(-365961663), None);
    assert_eq!(Date::of_unix_days(i64::MAX), None);
}

/// Each day follows the one before, through all of 800 years and around the first and the last one.
#[test]
fn each_day_follows_another() {
    let ranges = [-200_000..100_000, -365961662..-365961000, 364522000..364522972];
    for days in ranges.into_iter().flatten() {
        let date = Date::of_unix_days(days).expect("its year is in its range");
        assert_eq!(date.unix_days(), days, "{date:?}");
        assert_eq!(Date::new(date.year, date.month, date.day), Ok(date));
    }
}

#[test]
fn days_are_refused_as_by_the_library() {
    let years =
        [-1_000_000, -999_999, -400, -100, -4, 0, 1900, 2000, 2024, 2026, 999_999, 1_000_000];
    for year in years {
        for month in 0..=13 {
            for day in [0, 1, 28, 29, 30, 31, 32] {
                let moment = Moment::from(Date { year, month, day });
                let answer = format(Version::Three, "", &moment).map(drop);
                let expected = Date::new(year, month, day).map(drop).map_err(FormatError::from);
                assert_eq!(answer, expected, "{moment:?}");
            }
        }
    }
}
