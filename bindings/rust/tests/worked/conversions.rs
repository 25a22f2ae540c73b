//! Texts of one language as ones of another.

use crate::rows::{ONE, Parse, STRFTIME, THREE};
use timefd::{ConvertError, Language, Version, convert};

/// From which language to which version, which text, and what it becomes.
type Row = (Language, Version, &'static str, &'static str);

const ONE_IS: Language = Language::Version(Version::One);
const TWO_IS: Language = Language::Version(Version::Two);
const THREE_IS: Language = Language::Version(Version::Three);

const CONVERTED: &[Row] = &[
    (ONE_IS, Version::Two, "[[[day]]\\", r"\[[day]\]\\"),
    (ONE_IS, Version::Three, "[[[DAY]]", r"\[[day]\]"),
    (TWO_IS, Version::Three, "[YEAR]]", r"[year range:extended]\]"),
    (THREE_IS, Version::Three, "[ day padding:zero ]x", "[day]x"),
    (Language::Strftime, Version::Three, "%R, %-d", "[hour]:[minute], [day padding:none]"),
];

#[test]
fn each_text_is_converted() {
    for (from, to, text, expected) in CONVERTED {
        assert_eq!(convert(*from, *to, text).as_deref(), Ok(*expected), "{text:?} of {from:?}");
    }
    let long = "]".repeat(1_000);
    assert_eq!(convert(Version::One, Version::Two, &long), Ok(r"\]".repeat(1_000)));
}

#[test]
fn what_is_not_converted() {
    for (from, to) in [(THREE_IS, TWO_IS), (TWO_IS, ONE_IS), (ONE_IS, Language::Strftime)] {
        assert_eq!(convert(from, to, "x"), Err(ConvertError::NoConversion));
    }
    let error = convert(Version::Two, Version::Three, "[day").expect_err("it is not closed");
    assert_eq!(error.to_string(), "unclosed opening bracket at byte index 0");
}

/// What a description shows itself as means the same.
#[test]
fn shown_and_read_again() {
    let texts = ["[year]-[month]", "[optional [ [day]] ][first  [a\\]] [[hour]]]", ""];
    for text in texts {
        let description = THREE.parse(text).expect(text);
        let shown = description.to_string();
        let again = THREE.parse(&shown).expect(&shown);
        assert_eq!(description, again, "{text:?} is shown as {shown:?}");
        assert_eq!(again.to_string(), shown);
    }
    assert_eq!(ONE.parse("[[[day]").expect("a description").to_string(), r"\[[day]");
    assert_eq!(format!("{:>8}", STRFTIME.parse("%d").expect("a description")), "   [day]");
}
