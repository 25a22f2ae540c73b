//! Values of `chrono` from and to those here, read of the same texts by both.

use chrono::{DateTime, FixedOffset, NaiveDate, NaiveDateTime, NaiveTime, Utc};
use timefd::{Lack, Moment, Number, Time, ValueError};

const TEXTS: &[&str] = &[
    "2026-11-23T05:36:07.012345678+01:00",
    "1969-12-31T23:59:59-03:30",
    "0001-01-01T00:00:00+00:00",
    "9999-12-31T23:59:59.999999999+00:00",
    "2024-02-29T12:00:00.5+14:00",
];

#[test]
fn values_are_converted_both_ways() {
    for text in TEXTS {
        let ours: Moment = text.parse().expect(text);
        let theirs = DateTime::parse_from_rfc3339(text).expect(text);
        assert_eq!(Moment::from(theirs), ours, "{text}");
        let made = DateTime::<FixedOffset>::try_from(ours).expect(text);
        assert_eq!((made, made.offset()), (theirs, theirs.offset()), "{text}");
        let in_utc = Moment::from(theirs.with_timezone(&Utc));
        assert_eq!(in_utc.offset_seconds, Some(0));
        assert_eq!(DateTime::<FixedOffset>::try_from(in_utc), Ok(theirs), "{text}");

        let local = Moment { offset_seconds: None, ..ours };
        let theirs = theirs.naive_local();
        assert_eq!(Moment::from(theirs), local, "{text}");
        assert_eq!(NaiveDateTime::try_from(local), Ok(theirs), "{text}");

        assert_eq!(Moment::from(theirs.date()), Moment { time: None, ..local });
        assert_eq!(Moment::from(theirs.time()), Moment { date: None, ..local });
        assert_eq!(local.date.map(NaiveDate::try_from), Some(Ok(theirs.date())));
        assert_eq!(local.time.map(NaiveTime::try_from), Some(Ok(theirs.time())));
    }
}

/// Moments that are no `DateTime`, or no `NaiveDateTime`, and why.
#[test]
fn what_is_no_value() {
    let moment = |text: &str| text.parse::<Moment>().expect(text);
    let instant = |text| DateTime::<FixedOffset>::try_from(moment(text));
    assert_eq!(instant("2026-11-23"), Err(ValueError::Missing(Lack::NoTime)));
    assert_eq!(instant("05:36+01:00"), Err(ValueError::Missing(Lack::NoDate)));
    assert_eq!(instant("2026-11-23T05:36"), Err(ValueError::Missing(Lack::NoOffset)));
    assert_eq!(instant("2026-11-23T05:36+25:00"), Err(ValueError::Unrepresentable));
    let with_offset = NaiveDateTime::try_from(moment("2026-11-23T05:36Z"));
    assert_eq!(with_offset, Err(ValueError::OffsetLost));
    assert_eq!(
        NaiveDateTime::try_from(moment("+999999-11-23T05:36")),
        Err(ValueError::Unrepresentable)
    );
}

#[test]
fn a_leap_second_is_refused() {
    let leap = NaiveTime::from_hms_nano_opt(23, 59, 59, 1_500_000_000).expect("chrono has it");
    let time = Time::from(leap);
    assert_eq!(Moment::from(leap).check().map_err(|it| it.number()), Err(Number::Nanosecond));
    assert_eq!(NaiveTime::try_from(time), Err(ValueError::OutOfRange(Number::Nanosecond)));
}
