//! Other readers of the same texts.

use crate::kind::Kind;

/// A reader of texts of one kind, which makes its answer and drops it.
pub struct Peer {
    pub name: &'static str,
    pub kind: Kind,
    /// Whether it answers its items in a list, as a caller wants them, and doesn't only go through them.
    pub answers_items: bool,
    /// How many items the text has, if the reader takes it.
    pub read: fn(&str) -> Option<usize>,
}
