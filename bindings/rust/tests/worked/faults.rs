//! Faults reported whole: which one, the bytes at fault, and the nearest word.

use std::error::Error;
use std::iter::successors;

use crate::rows::{Language, ONE, Parse, STRFTIME, THREE, TWO};
use timefd::FaultKind::{self, *};
use timefd::Moment;

/// A text of a language, and its fault with the bytes and the nearest word.
type Row = (Language, &'static str, FaultKind, &'static str, Option<&'static str>);

const FAULTS: &[Row] = &[
    (THREE, "due [day", UnclosedBracket, "[", None),
    (THREE, "[year]-[mnth]", UnknownName, "mnth", Some("month")),
    (TWO, "é[YEER]", UnknownName, "YEER", Some("year")),
    (THREE, "[foo]", UnknownName, "foo", None),
    (TWO, "[hour padding:zreo]", InvalidModifier, "zreo", Some("zero")),
    (TWO, "[hour PADING:zero]", InvalidModifier, "PADING", Some("padding")),
    (ONE, "[day :zero]", InvalidModifier, ":", None),
    (ONE, "[]", MissingName, "[", None),
    (ONE, "[ignore]", MissingModifier, "ignore", None),
    (THREE, "é\\é", InvalidEscape, "é", None),
    (THREE, "a]", UnescapedBracket, "]", None),
    (THREE, "[optional[x]]", MissingSpace, "[", None),
    (THREE, "[optional]", MissingDescription, "]", None),
    (THREE, "[first]", MissingAlternative, "]", None),
    (THREE, "[optional [a] [b]]", SeveralDescriptions, "[", None),
    (TWO, "[optional [x]]", OptionalItem, "[", None),
    (TWO, "[first]", FirstItem, "[", None),
    (STRFTIME, "%O", UnsupportedFlag, "O", None),
    (STRFTIME, "%_Z", UnsupportedLetter, "Z", None),
    (STRFTIME, "%Y é%Q", UnknownName, "Q", None),
    (THREE, "[day [x]]", NestedInComponent, "[", None),
    (THREE, "[hour repr:12 repr:24]", DuplicateModifier, "repr", None),
    (THREE, "[month repr:long padding:none]", RefusedModifier, "padding", None),
];

#[test]
fn each_fault_is_told_whole() {
    for (language, text, kind, at, nearest) in FAULTS {
        let row = format!("{text:?} in {language:?}");
        let error = language.parse(text).expect_err(&row);
        let fault = error.fault().expect(&row);
        assert_eq!(fault.kind(), *kind, "{row}");
        assert_eq!(&text[fault.span()], *at, "{row}");
        assert_eq!(error.index(), Some(fault.index()), "{row}");
        assert_eq!(fault.span().start, fault.index(), "{row}");
        assert_eq!(fault.nearest(), *nearest, "{row}");
        assert_eq!(fault.to_string(), error.to_string(), "{row}");
        assert_eq!(chain(&error), fault.to_string(), "{row}");
    }
}

#[test]
fn nested_too_deep() {
    let text = format!("{}x{}", "[optional [".repeat(128), "]]".repeat(128));
    let error = THREE.parse(&text).expect_err("127 are the limit");
    assert_eq!(error.fault().map(|fault| fault.name()), Some("nested-too-deep"));
}

/// At the end of a text no byte is at fault.
#[test]
fn at_the_end() {
    let error = STRFTIME.parse("%_").expect_err("a letter has to follow");
    assert_eq!(error.fault().map(|fault| fault.span()), Some(2..2));
}

/// Each error of a text, and how often a chain of causes, as `anyhow` prints it, has its sentence.
#[test]
fn no_error_repeats_its_cause() {
    let text = "[year]-[mnth]";
    let sentence = "invalid component name `mnth` at byte index 8";
    let parsed = THREE.parse(text).expect_err(text);
    let errors: [Box<dyn Error>; 5] = [
        Box::new(parsed.fault().expect("it is a fault").clone()),
        Box::new(parsed.clone()),
        Box::new(timefd::format(THREE, text, &Moment::default()).expect_err(text)),
        Box::new(timefd::read(THREE, text, "").expect_err(text)),
        Box::new(timefd::convert(THREE, THREE, text).expect_err(text)),
    ];
    for error in &errors {
        assert_eq!(chain(error.as_ref()), sentence, "{error:?}");
    }
    let day = THREE.parse("[day]").expect("a description");
    let unwritten = day.write_to(&Moment::default(), &mut String::new()).expect_err("no date");
    assert_eq!(chain(&unwritten), "the component `day` shows nothing: the value has no date");
    let far = Moment { offset_seconds: Some(93_600), ..Moment::default() };
    let unwritten = day.write_to_io(&far, &mut Vec::new()).expect_err("the offset is too far");
    assert_eq!(chain(&unwritten), "offset must be less than 26 hours from UTC");
}

/// The sentences of an error and of its causes.
fn chain(error: &dyn Error) -> String {
    let causes = successors(Some(error), |&error| error.source());
    causes.map(ToString::to_string).collect::<Vec<String>>().join(": ")
}
