//! Literals found again in texts that these tests make up.

use std::format;
use std::string::String;

use super::{Literals, borrowed};

/// Literals of two bytes and more: such as are found by their first byte, and such as are too long for
/// that; some with their own front before them.
const SOUGHT: [&str; 6] =
    [", ", "é", "aab", "abcdefghijklmnop", "abcdefghijklmnopq", "aaaaaaaaaaaaaaaaaaab"];

/// What the library's bytes are borrowed as, in turn.
fn lent_in_turn(text: &str, literals: &[&str]) -> Option<String> {
    let bytes = literals.concat();
    let mut found = Literals::new(text, bytes.as_bytes());
    let mut start = 0;
    literals
        .iter()
        .map(|literal| {
            let place = found.place(start, literal.len())?;
            start += literal.len();
            Some(borrowed(text, place, literal.len()))
        })
        .collect()
}

#[test]
fn each_is_found_wherever_it_stands() {
    for literal in SOUGHT {
        for in_front in 0..50 {
            let front = "a".repeat(in_front);
            let text = format!("{front}{literal}|{literal}");
            assert_eq!(lent_in_turn(&text, &[literal]).as_deref(), Some(literal), "{text}");
            let twice = lent_in_turn(&text, &[literal, "%", literal]);
            assert_eq!(twice, Some(format!("{literal}%{literal}")), "{text}");
            assert_eq!(lent_in_turn(&text, &[literal, literal, literal]), None, "{text}");
            let mut short = text.clone();
            short.pop();
            assert_eq!(lent_in_turn(&short, &[literal, literal]), None, "{short}");
        }
    }
}

/// One of several bytes is the text's own, and one of one byte needs no text.
#[test]
fn the_text_lends_long_ones() {
    let text = "[day] of [month]";
    let mut literals = Literals::new(text, b" of /");
    let place = literals.place(0, 4).expect("the text has it");
    assert!(std::ptr::eq(borrowed(text, place, 4), &text[5..9]));
    assert!(!literals.are_ascii());
    let place = literals.place(4, 1).expect("each text has it");
    assert_eq!(borrowed(text, place, 1), "/");
}

#[test]
fn what_is_no_literal_has_no_place() {
    let mut literals = Literals::new("aé", "aé".as_bytes());
    for (start, count) in [(0, 0), (3, 1), (1, 1), (2, 1), (0, 4), (2, 2), (1, usize::MAX)] {
        assert_eq!(literals.place(start, count), None, "{count} from {start}");
    }
    assert!(literals.are_ascii());
}
