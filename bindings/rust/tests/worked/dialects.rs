//! Formats of other languages. What each means was measured with the real program.

use timefd::{ConvertFormatError, Dialect, Reason, convert_format};

/// Of which dialect, which format, the text of version 3, the first year, and whether offsets have
/// whole minutes.
type Row = (Dialect, &'static str, &'static str, u32, bool);

const CONVERTED: &[Row] = &[
    (Dialect::Python, "%d.%m. %H:%M", "[day].[month]. [hour]:[minute]", 0, false),
    (Dialect::Python, "%Y-%m-%d", "[year]-[month]-[day]", 1000, false),
    (Dialect::Python, "%z", "[offset_hour sign:mandatory][offset_minute]", 0, true),
    (Dialect::C, "%-d %b %R", "[day padding:none] [month repr:short] [hour]:[minute]", 0, false),
    (Dialect::Gnu, "%S.%3N", "[second].[subsecond digits:3]", 0, false),
    (Dialect::Chrono, "%e%.3f", "[day padding:space].[subsecond digits:3]", 0, false),
    (Dialect::Jiff, "%j, %I %p", "[ordinal], [hour repr:12] [period]", 0, false),
    (Dialect::Ruby, "%S.%L", "[second].[subsecond digits:3]", 0, false),
    (Dialect::Java, "d. 'um' HH", "[day padding:none]. um [hour]", 0, false),
    (Dialect::Java, "dd.MM.yyyy", "[day].[month].[year]", 1, false),
    (Dialect::Go, "2 Jan", "[day padding:none] [month repr:short]", 0, false),
    (Dialect::Moment, "YYYY-MM-DD[T]HH", "[year]-[month]-[day]T[hour]", 0, false),
];

/// Of which dialect, which format, and why and at which byte it is refused.
const REFUSED: &[(Dialect, &str, Reason, usize)] = &[
    (Dialect::Python, "%Y %Z", Reason::ZoneName, 3),
    (Dialect::Python, "%d %Q %Z", Reason::UnknownDirective, 3),
    (Dialect::Java, "'é' QQ", Reason::Quarter, 5),
    (Dialect::Java, "dd 'open", Reason::UnclosedQuote, 3),
    (Dialect::Java, "dd f", Reason::UnknownLetter, 3),
];

#[test]
fn each_format_is_converted() {
    for (dialect, format, text, first_year, whole_minutes) in CONVERTED {
        let converted = convert_format(*dialect, format).expect(format);
        assert_eq!(converted.text, *text, "{format:?} of {dialect}");
        assert_eq!(converted.first_year, *first_year, "{format:?} of {dialect}");
        assert_eq!(converted.whole_minutes, *whole_minutes, "{format:?} of {dialect}");
    }
    let long = convert_format(Dialect::Java, &"dd".repeat(1_000)).map(|it| it.text);
    assert_eq!(long.unwrap_err().refusal().expect("d").reason, Reason::TooManyLetters);
    let long = convert_format(Dialect::Python, &"%d".repeat(1_000)).map(|it| it.text);
    assert_eq!(long, Ok("[day]".repeat(1_000)));
}

#[test]
fn each_format_is_refused() {
    for (dialect, format, reason, index) in REFUSED {
        let error = convert_format(*dialect, format).expect_err(format);
        let refusal = error.refusal().expect("memory did not run out");
        assert_eq!((refusal.reason, refusal.index), (*reason, *index), "{format:?} of {dialect}");
    }
    let error = convert_format(Dialect::Python, "%Y %Z").expect_err("a zone's name");
    assert_eq!(
        error.to_string(),
        "at byte 3 of the format: it writes the name of a time zone. \
         Write the offset, or the name as a literal."
    );
    assert_eq!(ConvertFormatError::OutOfMemory.to_string(), "out of memory");
    assert_eq!(Reason::ZForUtc.name(), "z-for-utc");
}

#[test]
fn each_dialect_has_a_name() {
    for dialect in Dialect::ALL {
        assert_eq!(dialect.to_string().parse(), Ok(dialect));
    }
    assert!("strftime".parse::<Dialect>().is_err() && "Java".parse::<Dialect>().is_err());
}
