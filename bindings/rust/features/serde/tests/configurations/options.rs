//! Formats that may be missing.

use serde::{Deserialize, Serialize};
use timefd::FormatDescription;
use timefd::serde::OwnedFormat;

#[derive(Debug, Deserialize, Serialize)]
struct Config<'a> {
    #[serde(borrow, default, with = "timefd::serde::strftime")]
    borrowed: Option<FormatDescription<'a>>,
    #[serde(default, with = "timefd::serde::version_2")]
    owned: Option<OwnedFormat>,
}

/// Inputs, and the texts of both fields.
const ROWS: &[(&str, Option<&str>, Option<&str>)] = &[
    ("{}", None, None),
    (r#"{"borrowed":null,"owned":null}"#, None, None),
    (r#"{"borrowed":"%d"}"#, Some("%d"), None),
    (r#"{"borrowed":"%F","owned":"[DAY]"}"#, Some("%F"), Some("[DAY]")),
];

#[test]
fn a_format_or_none() {
    for (input, borrowed, owned) in ROWS {
        let config: Config = serde_json::from_str(input).expect(input);
        assert_eq!(config.borrowed.as_ref().map(FormatDescription::text), *borrowed, "{input}");
        assert_eq!(config.owned.as_ref().map(OwnedFormat::text), *owned, "{input}");
        let written = serde_json::to_value(&config).expect(input);
        assert_eq!(written, serde_json::json!({"borrowed": borrowed, "owned": owned}), "{input}");
    }
}

/// What is flattened is read twice: its null is a unit then.
#[test]
fn a_format_of_a_struct_that_is_flattened() {
    #[derive(Deserialize)]
    struct Outer<'a> {
        #[serde(flatten, borrow)]
        config: Config<'a>,
    }
    let input = r#"{"borrowed":null,"owned":"[DAY]"}"#;
    let Config { borrowed, owned } = serde_json::from_str::<Outer>(input).expect(input).config;
    assert_eq!((borrowed, owned.as_ref().map(OwnedFormat::text)), (None, Some("[DAY]")));
}

#[test]
fn a_fault_is_an_error() {
    let input = r#"{"borrowed": "100%"}"#;
    let error = serde_json::from_str::<Config>(input).expect_err(input);
    assert!(
        error.to_string().starts_with("expected valid escape sequence at byte index 3 at line")
    );
    let input = r#"{"owned": "[first]"}"#;
    let error = serde_json::from_str::<Config>(input).expect_err(input);
    let sentence =
        "'first' item is not supported in runtime-parsed format descriptions at byte index 0";
    assert!(error.to_string().starts_with(sentence), "{error}");
}
