//! Moments as texts, in their order, and from and to the system's clock.

use std::time::{Duration, SystemTime, UNIX_EPOCH};

use timefd::{Date, Lack, Moment, Number, RangeError, Time, ValueError};

const DAY: Option<Date> = Some(Date { year: 2026, month: 11, day: 23 });

const fn time(nanosecond: u32) -> Option<Time> {
    Some(Time { hour: 5, minute: 36, second: 7, nanosecond })
}

const fn moment(date: Option<Date>, time: Option<Time>, offset_seconds: Option<i32>) -> Moment {
    Moment { date, time, offset_seconds }
}

/// Texts of ISO 8601 and RFC 3339, and what they say.
const TEXTS: &[(&str, Moment)] = &[
    ("2026-11-23", moment(DAY, None, None)),
    ("05:36:07", moment(None, time(0), None)),
    ("05:36:07.012345678", moment(None, time(12_345_678), None)),
    ("2026-11-23T05:36:07", moment(DAY, time(0), None)),
    ("2026-11-23T05:36:07.5", moment(DAY, time(500_000_000), None)),
    ("2026-11-23T05:36:07+00:00", moment(DAY, time(0), Some(0))),
    ("2026-11-23T05:36:07.5-00:30", moment(DAY, time(500_000_000), Some(-1_800))),
    ("2026-11-23T05:36:07+01:00:30", moment(DAY, time(0), Some(3_630))),
    ("05:36:07+14:00", moment(None, time(0), Some(50_400))),
    ("2026-11-23-03:30", moment(DAY, None, Some(-12_600))),
    ("-11:00", moment(None, None, Some(-39_600))),
    ("0044-03-15", moment(Some(Date { year: 44, month: 3, day: 15 }), None, None)),
    ("-0044-03-15", moment(Some(Date { year: -44, month: 3, day: 15 }), None, None)),
    ("+12345-06-07", moment(Some(Date { year: 12_345, month: 6, day: 7 }), None, None)),
];

#[test]
fn texts_are_written_and_read() {
    for &(text, moment) in TEXTS {
        assert_eq!(text.parse(), Ok(moment), "{text}");
        assert_eq!(moment.to_string(), text);
    }
    assert_eq!("2026-11-23".parse().ok(), DAY);
    assert_eq!("05:36:07".parse().ok(), time(0));
    assert_eq!(
        format!("{:>12}|{:<7}|", DAY.expect("a day"), Time::default()),
        "  2026-11-23|00:00:00|"
    );
}

/// Texts that are read, and how they are written.
const OTHERS: &[(&str, &str)] = &[
    ("2026-11-23T05:36:07Z", "2026-11-23T05:36:07+00:00"),
    ("2026-11-23t05:36:07z", "2026-11-23T05:36:07+00:00"),
    ("2026-11-23 05:36", "2026-11-23T05:36:00"),
    ("05:36:07.500", "05:36:07.5"),
    ("05:36Z", "05:36:00+00:00"),
];

#[test]
fn other_texts_are_read() {
    for &(text, expected) in OTHERS {
        let moment: Moment = text.parse().expect(text);
        assert_eq!(moment.to_string(), expected, "{text}");
    }
}

/// Texts that are no moments, and why.
const UNREAD: &[(&str, &str)] = &[
    ("", "the component `year` was expected at byte 0"),
    ("Z", "the component `year` was expected at byte 0"),
    ("today", "the component `year` was expected at byte 0"),
    ("2026-13-23", "the component `month` was expected at byte 5"),
    ("2026-02-29", "the day disagrees with what else was read"),
    ("2026-11-23T05:66:07", "the component `minute` was expected at byte 14"),
    ("2026-11-23T05:36:07+0100", "nothing may follow at byte 19"),
    ("2026-11-23é05:36:07", "nothing may follow at byte 10"),
    ("2026-11-23T05:36:07.", "the component `subsecond` was expected at byte 20"),
    ("05:36:07+27:00", "the component `offset_hour` was expected at byte 8"),
];

#[test]
fn texts_are_refused() {
    for &(text, sentence) in UNREAD {
        let error = text.parse::<Moment>().expect_err(text);
        assert_eq!(error.to_string(), sentence, "{text}");
    }
    assert!("2026-11-23T05:36:07".parse::<Date>().is_err());
    assert!("2026-11-23T05:36:07".parse::<Time>().is_err());
}

#[test]
fn what_is_no_moment_is_shown_as_it_is() {
    let day = Date { year: 2026, month: 13, day: 1 };
    assert!(day.to_string().contains("month: 13"), "{day}");
}

#[test]
fn numbers_are_in_their_range() {
    let number = |error: RangeError| error.number();
    assert_eq!(Date::new(2026, 11, 23).ok(), DAY);
    assert_eq!(Date::new(1_000_000, 13, 32).map_err(number), Err(Number::Year));
    assert_eq!(Date::new(2026, 0, 32).map_err(number), Err(Number::Month));
    assert_eq!(Date::new(2026, 2, 29).map_err(number), Err(Number::Day));
    assert_eq!(Time::new(5, 36, 7, 0).ok(), time(0));
    assert_eq!(Time::new(24, 60, 60, 0).map_err(number), Err(Number::Hour));
    assert_eq!(Time::new(0, 60, 60, 0).map_err(number), Err(Number::Minute));
    assert_eq!(Time::new(0, 0, 60, 0).map_err(number), Err(Number::Second));
    assert_eq!(Time::new(0, 0, 0, 1_000_000_000).map_err(number), Err(Number::Nanosecond));
}

/// Texts of moments in their order.
const IN_ORDER: &[&str] = &[
    "-11:00",
    "+02:00",
    "05:36:07",
    "05:36:07.1",
    "2025-12-31",
    "2026-01-01",
    "2026-01-01T00:00:00",
    "2026-01-01T00:00:01+01:00", // 23:00:01 of the day before in UTC
    "2026-01-01T00:00:00+00:00",
    "2026-01-01T02:00:00+02:00", // the same, with a later time of day
    "2025-12-31T23:00:00-02:00",
];

#[test]
fn moments_are_in_the_order_of_time() {
    let moments: Vec<Moment> = IN_ORDER.iter().map(|text| text.parse().expect(text)).collect();
    let mut sorted = moments.clone();
    sorted.reverse();
    sorted.sort();
    assert_eq!(sorted, moments);
    assert!(moments.windows(2).all(|pair| pair[0] < pair[1]));
}

/// Moments, and how far they are from 1970: the second, the nanoseconds, and whether they are before.
const CLOCK: &[(&str, u64, u32, bool)] = &[
    ("1970-01-01T00:00:00+00:00", 0, 0, false),
    ("2026-11-23T04:36:07.5+00:00", 1_795_408_567, 500_000_000, false),
    ("1969-12-31T23:59:59.75+00:00", 0, 250_000_000, true),
    ("1901-01-01T00:00:00+00:00", 2_177_452_800, 0, true),
];

#[test]
fn the_clock_is_converted_both_ways() {
    for &(text, seconds, nanoseconds, is_before) in CLOCK {
        let moment: Moment = text.parse().expect(text);
        let distance = Duration::new(seconds, nanoseconds);
        let time = if is_before { UNIX_EPOCH - distance } else { UNIX_EPOCH + distance };
        assert_eq!(Moment::try_from(time), Ok(moment), "{text}");
        assert_eq!(SystemTime::try_from(moment), Ok(time), "{text}");
        let elsewhere = Moment { offset_seconds: Some(3_600), ..moment };
        assert_eq!(SystemTime::try_from(elsewhere), Ok(time - Duration::from_secs(3_600)));
    }
    let late = UNIX_EPOCH + Duration::from_secs(31_494_784_780_800); // in the year 1,000,000
    assert_eq!(Moment::try_from(late).map_err(RangeError::number), Err(Number::Year));
    let year = Moment::try_from(late - Duration::from_secs(1)).expect("it is in 999,999");
    assert_eq!(year.to_string(), "+999999-12-31T23:59:59+00:00");
}

#[test]
fn what_is_no_time_of_the_clock() {
    let lacks = [("2026-11-23", Lack::NoTime), ("05:36+00:00", Lack::NoDate)];
    for (text, lack) in [lacks.as_slice(), &[("2026-11-23T05:36", Lack::NoOffset)]].concat() {
        let moment: Moment = text.parse().expect(text);
        assert_eq!(SystemTime::try_from(moment), Err(ValueError::Missing(lack)), "{text}");
    }
    let far = moment(DAY, time(0), Some(26 * 3_600));
    assert_eq!(SystemTime::try_from(far), Err(ValueError::OutOfRange(Number::Offset)));
}
