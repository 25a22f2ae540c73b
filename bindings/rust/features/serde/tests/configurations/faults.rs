//! Faults with their fields. The rows are some of those of `timefd`.

use std::ops::Range;

use serde_json::json;
use timefd::serde::FaultFields;
use timefd::{FormatDescription, Language};

use crate::languages::{ONE, STRFTIME, THREE, TWO};

/// A text of a language, and its fault: the kind, the bytes, the nearest word and the sentence.
type Row = (Language, &'static str, &'static str, Range<usize>, Option<&'static str>, &'static str);

const ROWS: &[Row] = &[
    (
        THREE,
        "[year]-[mnth]",
        "unknown-name",
        8..12,
        Some("month"),
        "invalid component name `mnth` at byte index 8",
    ),
    (
        TWO,
        "é[YEER]",
        "unknown-name",
        3..7,
        Some("year"),
        "invalid component name `YEER` at byte index 3",
    ),
    (ONE, "[day :zero]", "invalid-modifier", 5..6, None, "invalid modifier `` at byte index 5"),
    (
        STRFTIME,
        "%_",
        "invalid-escape",
        2..2,
        None,
        "expected valid escape sequence at byte index 2",
    ),
];

#[test]
fn each_field() {
    for (language, text, kind, span, nearest, message) in ROWS {
        let error = FormatDescription::parse(*language, text).expect_err(text);
        let fields = FaultFields(error.fault().expect("there is memory"));
        let expected = json!({
            "kind": kind,
            "index": span.start,
            "span": {"start": span.start, "end": span.end},
            "nearest": nearest,
            "message": message,
        });
        assert_eq!(serde_json::to_value(fields).expect(text), expected);
    }
}

/// As a line of a log has them.
#[test]
fn in_their_order() {
    let error = FormatDescription::parse(THREE, "[foo]").expect_err("no component has that name");
    let line = concat!(
        r#"{"kind":"unknown-name","index":1,"span":{"start":1,"end":4},"nearest":null,"#,
        r#""message":"invalid component name `foo` at byte index 1"}"#
    );
    let fields = error.fault().map(FaultFields);
    assert_eq!(serde_json::to_string(&fields).expect("a line"), line);
}
