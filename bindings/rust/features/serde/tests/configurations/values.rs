//! Dates, times, moments and languages as texts.

use std::fmt::Debug;

use serde::Serialize;
use serde::de::DeserializeOwned;
use timefd::{Date, Language, Moment, Time, Version};

/// Expects that a text in JSON is read as this value, which is written so.
fn expect_both_ways<T: Serialize + DeserializeOwned + Debug + PartialEq>(text: &str, value: T) {
    assert_eq!(serde_json::from_str::<T>(text).ok().as_ref(), Some(&value), "{text}");
    assert_eq!(serde_json::to_string(&value).ok().as_deref(), Some(text));
}

#[test]
fn values_are_texts() {
    expect_both_ways(r#""2026-11-23""#, Date { year: 2026, month: 11, day: 23 });
    expect_both_ways(
        r#""05:06:07.5""#,
        Time { hour: 5, minute: 6, second: 7, nanosecond: 500_000_000 },
    );
    let moment: Moment = "2026-11-23T05:06:07+01:00".parse().expect("a moment");
    expect_both_ways(r#""2026-11-23T05:06:07+01:00""#, moment);
    expect_both_ways(r#""strftime""#, Language::Strftime);
    expect_both_ways(r#""2""#, Language::from(Version::Two));
}

#[test]
fn bad_values_are_refused() {
    let error = serde_json::from_str::<Date>(r#""2026-13-23""#).expect_err("there is no month 13");
    let sentence = "the component `month` was expected at byte 5 at line 1 column 12";
    assert_eq!(error.to_string(), sentence);
    let error = serde_json::from_str::<Moment>("5").expect_err("a number is no text");
    assert!(error.to_string().contains("expected a date, a time of day or both"), "{error}");
    let error = serde_json::from_str::<Language>(r#""chrono""#).expect_err("no such language");
    assert!(error.to_string().starts_with("unknown language: expected 1, 2, 3 or strftime"));
    let error = serde_json::to_string(&Date { year: 2026, month: 2, day: 29 });
    let sentence = "the month has no such day";
    assert_eq!(error.expect_err("there is no such day").to_string(), sentence);
}
