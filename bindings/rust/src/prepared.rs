//! Descriptions made of constants: what `format_description!` writes instead of a text, and the presets.

#[cfg(feature = "macros")]
pub use timefd_macros::format_description;

use crate::description::FormatDescription;
use crate::kept::Kept;
pub use crate::sys::RawNode as Node;
use crate::tree::{Shape, Tree};
use crate::version::Language;

/// A node of these numbers, in the order of the header.
pub const fn node(first: [u8; 10], ignored: u16, bytes: u32, start: usize, count: usize) -> Node {
    let [
        what,
        component,
        padding,
        sign_is_mandatory,
        case_sensitive,
        one_indexed,
        is_uppercase,
        digits,
        trailing_input,
        format,
    ] = first;
    Node {
        what,
        component,
        padding,
        sign_is_mandatory,
        case_sensitive,
        one_indexed,
        is_uppercase,
        digits,
        trailing_input,
        format,
        ignored,
        bytes,
        start,
        count,
    }
}

/// A description of literals and components.
pub const fn flat(
    language: Language,
    text: &'static str,
    nodes: &'static [Node],
    is_ascii: bool,
    max_bytes: usize,
) -> FormatDescription<'static> {
    of(language, text, nodes, Shape::Flat { is_ascii }, max_bytes)
}

/// A description in which nodes have members: so many are items, and these are written.
pub const fn nested(
    language: Language,
    text: &'static str,
    nodes: &'static [Node],
    items: u32,
    written: &'static [u32],
    max_bytes: usize,
) -> FormatDescription<'static> {
    let shape = Shape::Nested { items, written: Kept::Constant(written) };
    of(language, text, nodes, shape, max_bytes)
}

const fn of(
    language: Language,
    text: &'static str,
    nodes: &'static [Node],
    shape: Shape,
    max_bytes: usize,
) -> FormatDescription<'static> {
    let text = alloc::borrow::Cow::Borrowed(text);
    let tree = Tree { text, nodes: Kept::Constant(nodes), shape };
    FormatDescription::of_tree(language, tree, max_bytes)
}
