//! Dates written and read by a description that was read.

use std::fmt;
use std::io;

use crate::rows::{Language, ONE, Parse, STRFTIME, THREE};
use timefd::{
    ComponentKind, Date, FormatError, Lack, Moment, MomentPart, Number, ReadError, Time, Unread,
    WriteError,
};

const MOMENT: Moment = Moment {
    date: Some(Date { year: 2026, month: 11, day: 23 }),
    time: Some(Time { hour: 5, minute: 36, second: 7, nanosecond: 0 }),
    offset_seconds: None,
};

const WRITTEN: &[(Language, &str, &str)] = &[
    (THREE, "", ""),
    (THREE, "[year]-[month]-[day]", "2026-11-23"),
    (ONE, "[[[weekday], [day padding:none] [month repr:long]", "[Monday, 23 November"),
    (STRFTIME, "%H:%M:%S%%", "05:36:07%"),
    (THREE, "[optional format:false [[hour]]][first [[minute]] [[hour]]]", "36"),
];

/// An output that counts its writes.
#[derive(Default)]
struct Writes {
    text: String,
    count: usize,
}

impl fmt::Write for Writes {
    fn write_str(&mut self, text: &str) -> fmt::Result {
        self.count += 1;
        self.text.push_str(text);
        Ok(())
    }
}

impl io::Write for Writes {
    fn write(&mut self, bytes: &[u8]) -> io::Result<usize> {
        self.count += 1;
        self.text.push_str(std::str::from_utf8(bytes).expect("text"));
        Ok(bytes.len())
    }

    fn flush(&mut self) -> io::Result<()> {
        Ok(())
    }
}

/// An output that takes nothing.
struct Full;

impl fmt::Write for Full {
    fn write_str(&mut self, _: &str) -> fmt::Result {
        Err(fmt::Error)
    }
}

#[test]
fn each_way_writes_the_same() {
    let long = ("x".repeat(300) + "[year]", "x".repeat(300) + "2026");
    let many = ("[day]:".repeat(40), "23:".repeat(40));
    let rows = WRITTEN.iter().copied().chain([
        (THREE, long.0.as_str(), long.1.as_str()),
        (THREE, many.0.as_str(), many.1.as_str()),
    ]);
    for (language, text, expected) in rows {
        let description = language.parse(text).expect(text);
        assert_eq!(description.format(&MOMENT).as_deref(), Ok(expected));
        assert_eq!(description.show(MOMENT).to_string(), expected);
        let (mut texts, mut bytes) = (Writes::default(), Writes::default());
        let output: &mut dyn fmt::Write = &mut texts;
        assert_eq!(description.write_to(&MOMENT, output), Ok(()));
        let output: &mut dyn io::Write = &mut bytes;
        description.write_to_io(&MOMENT, output).expect("it takes all");
        assert_eq!((texts.text.as_str(), texts.count), (expected, 1), "{text:?}");
        let writes = usize::from(!expected.is_empty());
        assert_eq!((bytes.text.as_str(), bytes.count), (expected, writes), "{text:?}");
    }
}

#[test]
fn nothing_is_written_with_an_error() {
    let unshown = THREE.parse("[day] [offset_hour]").expect("a description");
    let mut output = Writes::default();
    let error = unshown.write_to(&MOMENT, &mut output).expect_err("there is no offset");
    assert_eq!(unshown.format(&MOMENT).err().map(WriteError::from), Some(error.clone()));
    let WriteError::Format(FormatError::Unshown { lack, .. }) = error else { panic!("{error}") };
    assert_eq!((lack, output.count), (Lack::NoOffset, 0));

    let date = Some(Date { year: 2026, month: 2, day: 29 });
    let error = unshown.format(&Moment { date, ..Moment::default() });
    assert_eq!(error, Err(FormatError::OutOfRange(Number::Day)));

    let day = THREE.parse("[day]").expect("a description");
    assert_eq!(day.write_to(&MOMENT, &mut Full), Err(WriteError::Output(fmt::Error)));
}

/// Languages, descriptions and dates that show a day, a time of day or an offset.
const READ: &[(Language, &str, &str, Moment)] = &[
    (THREE, "", "", NOTHING),
    (THREE, "[year]-[month]-[day]", "2026-11-23", Moment { date: MOMENT.date, ..NOTHING }),
    (ONE, "[[[ordinal] [year]", "[327 2026", Moment { date: MOMENT.date, ..NOTHING }),
    (STRFTIME, "%H:%M:%S%%", "05:36:07%", Moment { time: MOMENT.time, ..NOTHING }),
    (
        THREE,
        "[offset_hour][offset_minute]",
        "-0030",
        Moment { offset_seconds: Some(-1800), ..NOTHING },
    ),
];

const NOTHING: Moment = Moment { date: None, time: None, offset_seconds: None };

#[test]
fn dates_are_read() {
    for &(language, text, date, expected) in READ {
        let description = language.parse(text).expect(text);
        assert_eq!(description.read(date), Ok(expected), "{text:?}");
    }
}

/// Descriptions, dates, and the sentence of why they are not read.
const UNREAD: &[(&str, &str, &str)] = &[
    ("[month]", "1x", "the component `month` was expected at byte 0"),
    ("[day] [day]", "23 24", "the component `day` has a different value at byte 3"),
    ("é[day]/", "é23-", "another text was expected at byte 4"),
    ("[day]", "231", "nothing may follow at byte 2"),
    ("[month]-[day]", "11-23", "the year was not read"),
    ("[year]-[month]-[day]", "2026-02-29", "the day disagrees with what else was read"),
];

#[test]
fn dates_are_not_read() {
    for &(text, date, sentence) in UNREAD {
        let error = THREE.parse(text).expect(text).read(date).expect_err(date);
        assert_eq!(error.to_string(), sentence, "{text:?}");
    }
    let text = THREE.parse("[day]:[month]").expect("a description");
    let why = Unread::ReadsNothing { component: ComponentKind::MonthNumerical };
    assert_eq!(text.read("01:x"), Err(ReadError::Unread { index: 3, why }));
    assert_eq!(text.read("01:02"), Err(ReadError::Missing(MomentPart::Year)));
    let error = timefd::read(timefd::Version::Three, "[mnth]", "11").expect_err("no description");
    assert!(matches!(error, ReadError::Parse(_)), "{error}");
}
