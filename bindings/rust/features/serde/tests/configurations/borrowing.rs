//! Texts of JSON that hold a format as it is, and those that escape it.

use serde::Deserialize;
use timefd::FormatDescription;
use timefd::serde::{OwnedFormat, version_3};

#[derive(Debug, Deserialize)]
struct Borrowed<'a> {
    #[serde(borrow, with = "timefd::serde::version_3")]
    format: FormatDescription<'a>,
}

#[derive(Debug, Deserialize)]
struct Owned {
    #[serde(with = "timefd::serde::version_3")]
    format: OwnedFormat,
}

const NOT_BORROWED: &str = "the format can't be borrowed, since the input escapes it or is read in pieces: \
                            take an `OwnedFormat`";

/// Texts of JSON, and the formats that they escape.
const ESCAPED: &[(&str, &str)] = &[
    (r#"{"format": "[hour]\"[minute]"}"#, "[hour]\"[minute]"),
    (r#"{"format": "\\[[day]\\]"}"#, r"\[[day]\]"),
    (r#"{"format": "\u005bday]"}"#, "[day]"),
];

#[test]
fn a_text_without_escapes() {
    let input = r#"{"format": "[hour]:[minute]"}"#;
    let borrowed: Borrowed = serde_json::from_str(input).expect("nothing is escaped");
    assert!(std::ptr::eq(borrowed.format.text(), &input[12..27]));
    let owned: Owned = serde_json::from_str(input).expect("nothing is escaped");
    assert_eq!(owned.format.text(), "[hour]:[minute]");
}

#[test]
fn texts_with_escapes() {
    for (input, text) in ESCAPED {
        let owned: Owned = serde_json::from_str(input).expect(input);
        assert_eq!(owned.format.text(), *text);
        let error = serde_json::from_str::<Borrowed>(input).expect_err(input);
        assert!(error.to_string().starts_with(NOT_BORROWED), "{error}");
    }
}

#[test]
fn an_input_that_is_read_in_pieces() {
    let pieces = || serde_json::Deserializer::from_reader(r#""[day]""#.as_bytes());
    let owned: OwnedFormat = version_3::deserialize(&mut pieces()).expect("a format");
    assert_eq!(owned.text(), "[day]");
    let error = version_3::deserialize::<FormatDescription, _>(&mut pieces());
    assert!(error.expect_err("it can't be borrowed").to_string().starts_with(NOT_BORROWED));
}

/// The index counts the bytes of the format, not those of the input.
#[test]
fn a_fault_behind_an_escape() {
    let input = r#"{"format": "\u00e9[mnth]"}"#;
    let error = serde_json::from_str::<Owned>(input).expect_err(input).to_string();
    assert!(
        error.starts_with("invalid component name `mnth` at byte index 3 at line 1"),
        "{error}"
    );
}

#[test]
fn what_is_no_text() {
    for (input, found) in [
        (r#"{"format": 3}"#, "integer `3`"),
        (r#"{"format": null}"#, "null"),
        (r#"{"format": ["[day]"]}"#, "sequence"),
    ] {
        let expected = format!("invalid type: {found}, expected a format of version 3");
        let owned = serde_json::from_str::<Owned>(input).expect_err(input);
        assert!(owned.to_string().starts_with(&expected), "{owned}");
        let borrowed = serde_json::from_str::<Borrowed>(input).expect_err(input);
        assert!(borrowed.to_string().starts_with(&expected), "{borrowed}");
    }
}
