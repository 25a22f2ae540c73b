//! Texts that are refused, with the index of the fault and its sentence.

use crate::rows::{Language, ONE, Parse, STRFTIME, THREE, TWO, VERSIONS};
use timefd::{ParseError, v1_to_v2};

/// In which languages, which text, and the index and the sentence of its fault.
type Row = (&'static [Language], &'static str, usize, &'static str);

const BRACKETS: &[Row] = &[
    (VERSIONS, "[", 0, "missing component name at byte index 0"),
    (VERSIONS, "[]", 0, "missing component name at byte index 0"),
    (VERSIONS, "[ ]", 1, "missing component name at byte index 1"),
    (VERSIONS, "[  ]", 1, "missing component name at byte index 1"),
    (&[TWO, THREE], "[[day]]", 0, "missing component name at byte index 0"),
    (&[THREE], r"\[[day]]", 7, "expected right bracket to be escaped at byte index 7"),
    (VERSIONS, r"[day \]", 0, "unclosed opening bracket at byte index 0"),
    (VERSIONS, "[foo", 0, "unclosed opening bracket at byte index 0"),
    (VERSIONS, "[a[", 0, "unclosed opening bracket at byte index 0"),
    (&[THREE], r"[optional [[day\]]]", 0, "unclosed opening bracket at byte index 0"),
    (&[THREE], "due [day", 4, "unclosed opening bracket at byte index 4"),
    (&[THREE], r"é\é", 3, "expected valid escape sequence at byte index 3"),
    (&[THREE], r"é\", 2, "expected valid escape sequence at byte index 2"),
];

const NAMES_AND_MODIFIERS: &[Row] = &[
    (VERSIONS, "[foo]", 1, "invalid component name `foo` at byte index 1"),
    (VERSIONS, "[day [[foo]]]", 7, "invalid component name `foo` at byte index 7"),
    (&[THREE], "a[YEAR]", 2, "invalid component name `YEAR` at byte index 2"),
    (VERSIONS, "[day\u{b}]", 1, "invalid component name `day\u{b}` at byte index 1"),
    (VERSIONS, "[foo bar", 5, "invalid modifier `bar` at byte index 5"),
    (VERSIONS, "[day padding:]", 12, "invalid modifier `` at byte index 12"),
    (VERSIONS, "[day :zero]", 5, "invalid modifier `` at byte index 5"),
    (VERSIONS, "[day padding:zero:x]", 13, "invalid modifier `zero:x` at byte index 13"),
    (&[TWO], "[hour repr:99 repr:12]", 11, "invalid modifier `99` at byte index 11"),
    (VERSIONS, "[ignore count:65536]", 14, "invalid modifier `65536` at byte index 14"),
    (&[THREE], "[hour repr:12 repr:24]", 14, "duplicate modifier `repr` at byte index 14"),
    (VERSIONS, "[ignore]", 1, "missing required modifier `count` for component at byte index 1"),
    (
        &[THREE],
        "[year sign:mandatory repr:last_two range:standard]",
        35,
        "the `range` modifier is not valid at byte index 35 when `repr:last_two` is used",
    ),
    (
        &[THREE],
        "[month repr:long padding:none]",
        17,
        "the `padding` modifier is not valid at byte index 17 for long month",
    ),
];

const NESTING: &[Row] = &[
    (
        VERSIONS,
        "[day[x]]",
        4,
        "expected whitespace before nested format description at byte index 4",
    ),
    // "in on" is `time`'s wording.
    (
        VERSIONS,
        "[foo [x]]",
        0,
        "nested format descriptions is not supported in on this component at byte index 0",
    ),
    (VERSIONS, "[optional]", 9, "expected nested format description at byte index 9"),
    (
        &[ONE, TWO],
        "[optional [x]]",
        0,
        "optional item is not supported in runtime-parsed format descriptions at byte index 0",
    ),
    (
        &[ONE, TWO],
        "[first]",
        0,
        "'first' item is not supported in runtime-parsed format descriptions at byte index 0",
    ),
    (&[THREE], "[first]", 6, "expected at least one nested format description at byte index 6"),
];

const SPECIFICATIONS: &[Row] = &[
    (&[STRFTIME], "%", 0, "expected valid escape sequence at byte index 0"),
    (&[STRFTIME], "%_", 2, "expected valid escape sequence at byte index 2"),
    (&[STRFTIME], "%O", 1, "modifier is not supported at byte index 1"),
    (&[STRFTIME], "%_Z", 2, "component is not supported at byte index 2"),
    (&[STRFTIME], "%E", 1, "invalid component name `E` at byte index 1"),
    (&[STRFTIME], "%é", 1, "invalid component name `\u{fffd}` at byte index 1"),
];

#[test]
fn the_fault_is_as_expected() {
    for (languages, text, index, sentence) in
        [BRACKETS, NAMES_AND_MODIFIERS, NESTING, SPECIFICATIONS].concat()
    {
        for language in languages {
            let row = format!("{text:?} in {language:?}");
            let error = language.parse(text).expect_err(&row);
            assert_eq!(error.index(), Some(index), "{row}");
            assert_eq!(error.to_string(), sentence, "{row}");
        }
    }
}

#[test]
fn one_nested_description_too_many() {
    let text = format!("{}x{}", "[optional [".repeat(128), "]]".repeat(128));
    for language in VERSIONS {
        let error = language.parse(&text).expect_err("127 are the limit");
        assert_eq!(error.index(), Some(1407));
    }
}

/// A sentence that is longer than a first buffer for it.
#[test]
fn a_long_sentence_is_whole() {
    let name = "é".repeat(1_000);
    let error = THREE.parse(&format!("[{name}]")).expect_err("no component has that name");
    assert_eq!(error.to_string(), format!("invalid component name `{name}` at byte index 1"));
}

#[test]
fn versions_are_converted() {
    let converted = [("", ""), ("[[[day]]\\", r"\[[day]\]\\"), ("é\\é", r"é\\é")];
    for (text, expected) in converted {
        assert_eq!(v1_to_v2(text).as_deref(), Ok(expected));
    }
    let error: ParseError = v1_to_v2("a[day").expect_err("the bracket is not closed");
    assert_eq!(error.to_string(), "unclosed opening bracket at byte index 1");
}
