//! The numbers of the header `timefd.h`, each beside what this crate takes it for. The header stands
//! in the repository, so this runs there alone.

use std::borrow::ToOwned;
use std::collections::BTreeMap;
use std::fmt::Debug;
use std::format;
use std::fs;
use std::string::String;
use std::vec::Vec;

use super::{ACCEPTED, COMPONENT, COMPOUND, FIRST, LITERAL, NO_MEMORY, OPTIONAL, REFUSED};
use super::{CONTRADICTION, MISSING, MOST_WARNINGS, UNREAD};
use super::{NO_CONVERSION, OUT_OF_RANGE, RawMoment, RawNode, UNSHOWN, VERSION};
use crate::component_kind::ComponentKind;
use crate::decode;
use crate::dialect::Dialect;
use crate::fault::FaultKind;
use crate::lack::Lack;
use crate::modifier::{Padding, SubsecondDigits, TrailingInput, boolean};
use crate::moment_part::MomentPart;
use crate::range::Number;
use crate::read::Unread;
use crate::reason::Reason;
use crate::version::{Language, Version};
use crate::warning::Warning;

const HEADER: &str = concat!(env!("CARGO_MANIFEST_DIR"), "/../../examples/timefd.h");

/// The numbers that this crate has no use for. No call of it answers these statuses: its texts are UTF-8,
/// its languages known, and its nodes those of a description. It reads composite letters as their members.
const UNUSED: [&str; 7] = [
    "NOT_UTF8",
    "UNKNOWN_KIND",
    "NO_DESCRIPTION",
    "DATE_NOT_UTF8",
    "COMPOSITE",
    "COMPOSITE_NODES",
    "COMPOSITE_LITERALS",
];

/// Each `#define TIMEFD_NAME 12u` of the header, by its name.
fn defined(header: &str) -> BTreeMap<String, u32> {
    let lines = header.lines().filter_map(|line| line.strip_prefix("#define TIMEFD_"));
    let words = lines.filter_map(|line| {
        let mut words = line.split_whitespace();
        Some((words.next()?, words.next()?.strip_suffix('u')?.parse().ok()?))
    });
    words.map(|(name, number)| (name.to_owned(), number)).collect()
}

/// The name that a variant has in the header: `Hour12 { .. }` is `HOUR_12`.
fn header_name(variant: impl Debug) -> String {
    let shown = format!("{variant:?}");
    let word = shown.split(' ').next().unwrap_or_default();
    let mut name = String::new();
    for (at, c) in word.char_indices() {
        let begins_number = c.is_ascii_digit() && !name.ends_with(|it: char| it.is_ascii_digit());
        if at > 0 && (c.is_ascii_uppercase() || begins_number) {
            name.push('_');
        }
        name.push(c.to_ascii_uppercase());
    }
    name
}

/// What a number of a component is taken for.
fn component_name(number: u8) -> Option<String> {
    let mut node = RawNode { what: COMPONENT, component: number, ignored: 1, ..RawNode::default() };
    (node.padding, node.sign_is_mandatory, node.case_sensitive) = (1, 1, 1);
    (node.one_indexed, node.is_uppercase, node.digits, node.trailing_input) = (1, 1, 1, 1);
    decode::component(&node).map(header_name)
}

/// What a number of a modifier is taken for, in each of them.
fn modifier_names(number: u8) -> Vec<String> {
    let padding = Padding::from_number(number).map(|it| format!("PADDING_{}", header_name(it)));
    let digits = SubsecondDigits::from_number(number);
    let digits = digits.filter(|it| *it == SubsecondDigits::OneOrMore).map(header_name);
    let trailing = TrailingInput::from_number(number).map(header_name);
    [padding, digits, trailing, boolean(number).map(header_name)].into_iter().flatten().collect()
}

/// What a number of an answer of `timefd_format` is taken for.
fn reason_names(number: u32) -> Vec<String> {
    let lack = Lack::from_number(number).map(header_name);
    let range = Number::from_number(number).map(|it| format!("RANGE_{}", header_name(it)));
    [lack, range].into_iter().flatten().collect()
}

/// What a number of an answer of `timefd_read_date` is taken for.
fn date_names(number: u32) -> Vec<String> {
    let why = Unread::from_number(number, 1).map(header_name);
    let part = MomentPart::from_number(number).map(|it| format!("PART_{}", header_name(it)));
    [why, part].into_iter().flatten().collect()
}

/// The fault that a number of the header is taken for.
fn fault_name(number: u32) -> Option<String> {
    FaultKind::from_number(number).map(|it| format!("FAULT_{}", header_name(it)))
}

/// The warning that a number of the header is taken for.
fn warning_name(number: u32) -> Option<String> {
    Warning::from_number(number).map(|it| format!("WARNING_{}", header_name(it)))
}

/// The reason that a number of the header is taken for.
fn refused_name(number: u32) -> Option<String> {
    Reason::from_number(number).map(|it| format!("REASON_{}", header_name(it)))
}

/// What this crate takes the numbers for, by the header's names.
fn taken() -> BTreeMap<String, u32> {
    let named = [
        ("VERSION", VERSION),
        ("VERSION_1", Version::One.number()),
        ("VERSION_2", Version::Two.number()),
        ("VERSION_3", Version::Three.number()),
        ("STRFTIME", Language::Strftime.number()),
        ("ACCEPTED", ACCEPTED),
        ("REFUSED", REFUSED),
        ("NO_MEMORY", NO_MEMORY),
        ("UNSHOWN", UNSHOWN),
        ("OUT_OF_RANGE", OUT_OF_RANGE),
        ("NO_CONVERSION", NO_CONVERSION),
        ("UNREAD", UNREAD),
        ("CONTRADICTION", CONTRADICTION),
        ("MISSING", MISSING),
        ("HAS_DATE", RawMoment::HAS_DATE),
        ("HAS_TIME", RawMoment::HAS_TIME),
        ("HAS_OFFSET", RawMoment::HAS_OFFSET),
        ("LITERAL", LITERAL.into()),
        ("COMPONENT", COMPONENT.into()),
        ("COMPOUND", COMPOUND.into()),
        ("OPTIONAL", OPTIONAL.into()),
        ("FIRST", FIRST.into()),
        ("MOST_WARNINGS", MOST_WARNINGS as u32),
    ];
    let named = named.map(|(name, number)| (name.to_owned(), number));
    let components =
        (0..=u8::MAX).filter_map(|number| Some((component_name(number)?, number.into())));
    let modifiers = (0..=u8::MAX).flat_map(|number| {
        modifier_names(number).into_iter().map(move |name| (name, number.into()))
    });
    let reasons = (0..=255)
        .flat_map(|number| reason_names(number).into_iter().map(move |name| (name, number)));
    let dates =
        (0..=255).flat_map(|number| date_names(number).into_iter().map(move |name| (name, number)));
    let faults = (0..=255).filter_map(|number| Some((fault_name(number)?, number)));
    let warnings = (0..=255).filter_map(|number| Some((warning_name(number)?, number)));
    let dialects = Dialect::ALL.into_iter().map(|it| (header_name(it), it.number()));
    let refused = (0..=255).filter_map(|number| Some((refused_name(number)?, number)));
    let named = named.into_iter().chain(dialects).chain(refused);
    let numbers = named.chain(faults).chain(warnings).chain(components);
    numbers.chain(modifiers).chain(reasons).chain(dates).collect()
}

#[test]
fn each_component_is_of_the_kind_of_its_number() {
    for number in 0..=u8::MAX {
        let kind = ComponentKind::from_number(number.into());
        assert_eq!(kind.map(header_name), component_name(number));
    }
}

#[test]
fn each_number_is_that_of_the_header() {
    let header = fs::read_to_string(HEADER).expect("the header stands in the repository");
    let mut defined = defined(&header);
    for name in UNUSED {
        assert!(defined.remove(name).is_some(), "the header has no {name}");
    }
    assert_eq!(taken(), defined);
}

/// The table of the linter's names.
const CODES: &str =
    concat!(env!("CARGO_MANIFEST_DIR"), "/../../crates/timefd_lang_fault/src/code.rt");

#[test]
fn each_fault_has_the_name_of_the_linter() {
    let codes = fs::read_to_string(CODES).expect("the table stands in the repository");
    let rows = codes.lines().filter_map(|line| {
        let (code, name) = line.trim().strip_prefix("Code::")?.split_once(" => \"")?;
        Some((code.to_owned(), name.strip_suffix("\",")?.to_owned()))
    });
    let rows: BTreeMap<String, String> = rows.collect();
    let named = (0..=255).filter_map(FaultKind::from_number);
    let named: BTreeMap<String, String> =
        named.map(|kind| (format!("{kind:?}"), kind.name().to_owned())).collect();
    assert_eq!(named, rows);
}

/// The table of the linter's names of warnings.
const WARNINGS: &str =
    concat!(env!("CARGO_MANIFEST_DIR"), "/../../crates/timefd_lang_warnings/src/warning.rt");

#[test]
fn each_warning_has_the_name_of_the_linter() {
    let table = fs::read_to_string(WARNINGS).expect("the table stands in the repository");
    let rows = table.lines().filter_map(|line| {
        let (_, name) = line.trim().strip_prefix("Warning::")?.split_once(" => \"")?;
        name.strip_suffix("\",")
    });
    let named: Vec<&str> = (1..).map_while(Warning::from_number).map(Warning::name).collect();
    assert_eq!(named, rows.take(MOST_WARNINGS).collect::<Vec<&str>>());
}
