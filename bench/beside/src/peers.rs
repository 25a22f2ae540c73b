//! The readers of `time` and `chrono`.

use chrono::format::{Item, StrftimeItems};
use std::hint::black_box;

/// The parser of `time`, which answers a vector of items.
pub fn read_by_time(text: &str) -> Option<usize> {
    let items = time::format_description::parse(text).ok()?;
    Some(black_box(&items).len())
}

/// The iterator of `chrono` to its end, whose items are counted.
pub fn counted_by_chrono(text: &str) -> Option<usize> {
    let mut count = 0;
    for item in StrftimeItems::new(text) {
        if let Item::Error = black_box(&item) {
            return None;
        }
        count += 1;
    }
    Some(count)
}

/// The same into a vector, which is what the library's readers answer.
pub fn collected_from_chrono(text: &str) -> Option<usize> {
    let mut items = Vec::new();
    for item in StrftimeItems::new(text) {
        if let Item::Error = item {
            return None;
        }
        items.push(item);
    }
    Some(black_box(&items).len())
}
