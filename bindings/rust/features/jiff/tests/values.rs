//! Values of `jiff` from and to those here, read of the same texts by both.

use jiff::civil::{Date, DateTime, Time};
use jiff::{Timestamp, Zoned};
use timefd::{Lack, Moment, Number, ValueError};

const TEXTS: &[&str] = &[
    "2026-11-23T05:36:07.012345678+01:00",
    "1969-12-31T23:59:59-03:30",
    "0001-01-01T00:00:00+00:00",
    "9998-12-31T23:59:59.999999999+00:00",
    "2024-02-29T12:00:00.5+14:00",
];

#[test]
fn values_are_converted_both_ways() {
    for text in TEXTS {
        let ours: Moment = text.parse().expect(text);
        let theirs: Timestamp = text.parse().expect(text);
        assert_eq!(Timestamp::try_from(ours), Ok(theirs), "{text}");
        assert_eq!(Timestamp::try_from(Moment::from(theirs)), Ok(theirs), "{text}");
        assert_eq!(Moment::from(theirs).offset_seconds, Some(0));
        let zoned = Zoned::try_from(ours).expect(text);
        assert_eq!((Moment::from(&zoned), zoned.timestamp()), (ours, theirs), "{text}");

        let local = Moment { offset_seconds: None, ..ours };
        let theirs: DateTime = text[..text.len() - 6].parse().expect(text);
        assert_eq!(Moment::from(theirs), local, "{text}");
        assert_eq!(DateTime::try_from(local), Ok(theirs), "{text}");

        assert_eq!(Moment::from(theirs.date()), Moment { time: None, ..local });
        assert_eq!(Moment::from(theirs.time()), Moment { date: None, ..local });
        assert_eq!(local.date.map(Date::try_from), Some(Ok(theirs.date())));
        assert_eq!(local.time.map(Time::try_from), Some(Ok(theirs.time())));
    }
}

/// Moments that are no `Timestamp`, or no `DateTime`, and why.
#[test]
fn what_is_no_value() {
    let moment = |text: &str| text.parse::<Moment>().expect(text);
    let instant = |text| Timestamp::try_from(moment(text));
    assert_eq!(instant("2026-11-23"), Err(ValueError::Missing(Lack::NoTime)));
    assert_eq!(instant("05:36+01:00"), Err(ValueError::Missing(Lack::NoDate)));
    assert_eq!(instant("2026-11-23T05:36"), Err(ValueError::Missing(Lack::NoOffset)));
    let with_offset = DateTime::try_from(moment("2026-11-23T05:36Z"));
    assert_eq!(with_offset, Err(ValueError::OffsetLost));
    let beyond = DateTime::try_from(moment("+12345-11-23T05:36"));
    assert_eq!(beyond, Err(ValueError::Unrepresentable));
    let day = timefd::Date { year: 2026, month: 2, day: 29 };
    assert_eq!(Date::try_from(day), Err(ValueError::OutOfRange(Number::Day)));
}
