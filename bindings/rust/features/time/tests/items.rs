//! Items of `time` beside those of the same text here.

// `FormatItem` has another name since 0.3.37.
#![allow(deprecated)]

use time::format_description::{self, FormatItem};
use timefd::time::{Unsupported, to_items, to_text};
use timefd::{FormatDescription, Part, Version};

/// Texts of version 1 that `time` 0.3.9 takes: each of its components with each of its modifiers.
const TEXTS: &[&str] = &[
    "",
    "[[a]",
    "due [day padding:none] [month repr:long], [year]",
    "[day padding:space][month padding:none][month repr:short case_sensitive:false]",
    "[ordinal padding:space] [weekday] [weekday repr:short case_sensitive:false]",
    "[weekday repr:sunday one_indexed:false][weekday repr:monday]",
    "[week_number][week_number repr:sunday padding:none][week_number repr:monday]",
    "[year base:iso_week sign:mandatory padding:space] [year repr:last_two base:iso_week]",
    "[year repr:last_two padding:none][year sign:mandatory]",
    "[hour repr:12 padding:space]:[hour]:[minute padding:none]:[second padding:space]",
    "[period case:lower][period case_sensitive:false]",
    "[subsecond][subsecond digits:1][subsecond digits:2][subsecond digits:3][subsecond digits:9]",
    "[subsecond digits:4][subsecond digits:5][subsecond digits:6][subsecond digits:7][subsecond digits:8]",
    "[offset_hour sign:mandatory]:[offset_minute padding:space][offset_second][offset_hour]",
    "é\\[minute]",
];

/// The items with neighbouring literals joined: where one ends and the next begins is not the same
/// in each version of `time`, and makes no difference to what is written.
fn joined<T>(parts: impl Iterator<Item = Result<String, T>>) -> Vec<Result<String, T>> {
    let mut all: Vec<Result<String, T>> = Vec::new();
    for part in parts {
        match (all.last_mut(), part) {
            (Some(Ok(text)), Ok(more)) => text.push_str(&more),
            (_, part) => all.push(part),
        }
    }
    all
}

fn theirs(items: &[FormatItem<'_>]) -> Vec<Result<String, time::format_description::Component>> {
    joined(items.iter().map(|item| match item {
        FormatItem::Literal(bytes) => Ok(String::from_utf8(bytes.to_vec()).expect("text")),
        FormatItem::Component(component) => Err(*component),
        _ => panic!("these are flat"),
    }))
}

fn ours(description: &FormatDescription<'_>) -> Vec<Result<String, timefd::Component>> {
    joined(description.parts().map(|part| match part {
        Part::Literal(text) => Ok(text.to_owned()),
        Part::Component(component) => Err(component),
        other => panic!("{other:?}"),
    }))
}

#[test]
fn the_items_are_those_that_time_reads() {
    for text in TEXTS {
        let description = FormatDescription::parse(Version::One, text).expect(text);
        let expected = format_description::parse(text).expect(text);
        assert_eq!(theirs(&to_items(&description).expect(text)), theirs(&expected), "{text}");
    }
}

#[test]
fn the_text_means_the_same() {
    for text in TEXTS {
        let items = format_description::parse(text).expect(text);
        let modern = to_text(&items).expect(text);
        let description = FormatDescription::parse(Version::Three, &modern).expect(&modern);
        let expected = FormatDescription::parse(Version::One, text).expect(text);
        assert_eq!(ours(&description), ours(&expected), "{text} is {modern}");
    }
}

#[test]
fn nested_items() {
    let day = format_description::parse("[day]-").expect("a description");
    let items = [FormatItem::Literal(b"x"), FormatItem::Compound(&day)];
    let optional = FormatItem::Optional(&items[1]);
    let nested = [optional, FormatItem::First(&items)];
    let text = to_text(&nested).expect("all of it has a text");
    assert_eq!(text, "[optional [[day padding:zero]-]][first [x] [[day padding:zero]-]]");
}

/// Components of which some versions of `time` know nothing, each as `time` has it, where it does.
#[test]
fn what_is_lacking() {
    let lacking = [
        ("[ignore count:2]", "ignore"),
        ("[unix_timestamp]", "unix_timestamp"),
        ("[unix_timestamp precision:nanosecond sign:mandatory]", "unix_timestamp"),
        ("[end]", "end"),
        ("[year repr:century range:standard]", "year repr:century"),
        ("[year repr:century range:extended base:iso_week]", "year repr:century"),
    ];
    for (text, part) in lacking {
        let description = FormatDescription::parse(Version::Three, text).expect(text);
        let answer = to_items(&description);
        match format_description::parse(text) {
            Ok(expected) => assert_eq!(answer, Ok(expected), "{text}"),
            Err(_) => {
                let error: Unsupported = answer.expect_err(text);
                assert_eq!(error.part(), part);
                assert_eq!(error.to_string(), format!("the other library has no {part}"));
            }
        }
    }
    let error = to_text(&[FormatItem::Literal(b"\xff")]).expect_err("that is no text");
    assert_eq!(error.part(), "literal of bytes");
}
