//! A long text is read once: there is room for all its nodes before.

use std::format;
use std::string::String;
use std::vec;
use std::vec::Vec;

use super::{FormatDescription, most_nodes};
use crate::sys::{self, RawNode};
use crate::version::{Language, Version};

/// Parts of which texts of a language have the most nodes for their length.
const PARTS: &[(Language, &[&str])] = &[
    (Language::Version(Version::One), &["[[", "a[[", "[day]", "[day]-", "\\", "a\\[day]"]),
    (Language::Version(Version::Two), &["\\[", "a\\\\", "\\]b", "[day]", "[day]-"]),
    (
        Language::Version(Version::Three),
        &[
            "\\[",
            "a\\\\",
            "[day]-",
            "[optional [a]]",
            "[optional []]",
            "[optional [a[day]b\\]]]",
            "[first [] [] []]",
            "[first [a] [[day]] [b[day]c]]-",
            "[optional [[first [a] [[optional [b]]]]]]",
        ],
    ),
    (Language::Strftime, &["%d", "%d-", "%%", "a%%", "%n"]),
];

#[test]
fn there_is_room_for_all_nodes() {
    for (language, parts) in PARTS {
        for part in *parts {
            let text = part.repeat(200);
            let most = most_nodes(*language, &text);
            let mut nodes = vec![RawNode::default(); most];
            let mut literals = vec![0; text.len()];
            let answer = sys::read(language.number(), &text, &mut nodes, &mut literals);
            assert_eq!(answer.status, sys::ACCEPTED, "{part}");
            assert!(answer.written, "{part}: room for {most} nodes of {}", answer.nodes);
        }
    }
}

/// The items of a text, as they are shown.
fn items_of(language: Language, text: &str) -> Vec<String> {
    let description = FormatDescription::parse(language, text).expect("it is a description");
    description.items().map(|it| format!("{it:?}")).collect()
}

/// What has room on the stack, what is kept where it was written and what is read again have the same items.
#[test]
fn all_lengths_are_read_alike() {
    let composites = (Language::Strftime, &["%c%F%T"][..]);
    for (language, parts) in PARTS.iter().copied().chain([composites]) {
        for part in parts {
            // A component between them keeps literals apart.
            let between = if language == Language::Strftime { "%d" } else { "[day]" };
            let part = format!("{part}{between}");
            let items = items_of(language, &part);
            for count in [1, 2, 5, 10, 20, 40, 300] {
                let found = items_of(language, &part.repeat(count));
                assert!(found.iter().eq(items.iter().cycle().take(count * items.len())), "{part}");
            }
        }
    }
}
