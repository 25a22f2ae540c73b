//! Looking at the nodes of a description.

use core::fmt;
use core::iter::FusedIterator;

use crate::component::Component;
use crate::content::{Content, Nesting};
use crate::tree::Tree;

/// What a node of a description is.
#[derive(Debug, Clone)]
#[non_exhaustive]
pub enum Node<'a> {
    /// Text that is written as it is.
    Literal(&'a str),
    /// A part of a date or time.
    Component(Component),
    /// Its members, one after another.
    Compound(Members<'a>),
    /// A part that input may have or lack. A formatter writes it if `format` is true.
    Optional {
        /// Whether a formatter writes it.
        format: bool,
        /// The part.
        item: Item<'a>,
    },
    /// Alternatives. A parser takes the first one that fits, and a formatter writes the first one
    /// of all.
    First(Members<'a>),
}

/// One node of a description, with everything below it. It is a position in the description, so
/// copying it costs nothing.
#[derive(Clone, Copy)]
pub struct Item<'a> {
    tree: &'a Tree<'a>,
    index: u32,
}

impl<'a> Item<'a> {
    /// What the node is.
    #[must_use]
    pub fn node(self) -> Node<'a> {
        match self.tree.content(self.index) {
            Content::Literal(text) => Node::Literal(text),
            Content::Component(component) => Node::Component(component),
            Content::Nested(nesting, begin) => self.nested(nesting, begin),
        }
    }

    /// What a node with members is. It is a call of its own, as most texts have none.
    #[inline(never)]
    fn nested(self, nesting: Nesting, begin: u32) -> Node<'a> {
        match nesting {
            Nesting::Compound => Node::Compound(self.members(begin)),
            Nesting::Optional => Node::Optional { format: true, item: self.member() },
            Nesting::Unwritten => Node::Optional { format: false, item: self.member() },
            Nesting::First => Node::First(self.members(begin)),
        }
    }

    /// The greatest length of any text that the node is shown as, in bytes; `u32::MAX` where it is
    /// longer.
    #[must_use]
    pub fn max_bytes_needed(self) -> usize {
        self.tree.max_bytes(self.index)
    }

    /// The members: the last one is before the node, and the first node of all below it has
    /// the index `begin`.
    fn members(self, begin: u32) -> Members<'a> {
        Members::in_front_of(self.index, self.tree, self.tree.members(self.index, begin))
    }

    /// The one member of an optional part.
    fn member(self) -> Item<'a> {
        Item { index: self.index - 1, ..self }
    }
}

impl fmt::Debug for Item<'_> {
    fn fmt(&self, f: &mut fmt::Formatter<'_>) -> fmt::Result {
        self.node().fmt(f)
    }
}

/// The items of a description, or the members of a node, in their order.
#[derive(Clone)]
#[must_use = "iterators do nothing unless they are gone through"]
pub struct Members<'a> {
    tree: &'a Tree<'a>,
    /// The index of the next one from the front, and from the back, if any is left.
    front: u32,
    back: u32,
    left: u32,
}

impl<'a> Members<'a> {
    /// The items of a description.
    pub(crate) fn items(tree: &'a Tree<'a>) -> Self {
        Self::in_front_of(tree.len(), tree, tree.items())
    }

    /// So many members, of which the last one is before a place.
    fn in_front_of(place: u32, tree: &'a Tree<'a>, count: u32) -> Self {
        let back = place.saturating_sub(1);
        // The ring leads from the last one to the first.
        let front = if count > 0 { tree.next(back) } else { back };
        Self { tree, front, back, left: count }
    }
}

impl<'a> Iterator for Members<'a> {
    type Item = Item<'a>;

    fn next(&mut self) -> Option<Item<'a>> {
        self.left = self.left.checked_sub(1)?;
        let item = Item { tree: self.tree, index: self.front };
        self.front = self.tree.next(item.index);
        Some(item)
    }

    fn size_hint(&self) -> (usize, Option<usize>) {
        (self.left as usize, Some(self.left as usize))
    }
}

impl<'a> DoubleEndedIterator for Members<'a> {
    fn next_back(&mut self) -> Option<Item<'a>> {
        self.left = self.left.checked_sub(1)?;
        let item = Item { tree: self.tree, index: self.back };
        // In front of all that is below it stands the member before.
        self.back = self.tree.begin(item.index).saturating_sub(1);
        Some(item)
    }
}

impl ExactSizeIterator for Members<'_> {}

impl FusedIterator for Members<'_> {}

impl fmt::Debug for Members<'_> {
    fn fmt(&self, f: &mut fmt::Formatter<'_>) -> fmt::Result {
        f.debug_list().entries(self.clone()).finish()
    }
}

/// All nodes of a description, each before its members. It takes no memory, and no more stack in a
/// description that is deeply nested.
#[derive(Debug, Clone)]
#[must_use = "iterators do nothing unless they are gone through"]
pub struct Nodes<'a> {
    tree: &'a Tree<'a>,
    next: u32,
    left: u32,
}

impl<'a> Nodes<'a> {
    pub(crate) fn new(tree: &'a Tree<'a>) -> Self {
        Self { tree, next: Members::items(tree).front, left: tree.len() }
    }

    /// Where to go on after a node and all below it.
    fn after(&self, index: u32) -> u32 {
        let mut index = index;
        // The last member leads back to the first, and the node of which it is one follows it.
        while self.tree.next(index) <= index {
            index += 1;
            if index == self.tree.len() {
                return index;
            }
        }
        self.tree.next(index)
    }
}

impl<'a> Iterator for Nodes<'a> {
    type Item = Item<'a>;

    fn next(&mut self) -> Option<Item<'a>> {
        self.left = self.left.checked_sub(1)?;
        let item = Item { tree: self.tree, index: self.next };
        if self.tree.begin(item.index) < item.index {
            self.next = self.tree.next(item.index - 1); // the first member
        } else if self.left > 0 {
            self.next = self.after(item.index);
        }
        Some(item)
    }

    fn size_hint(&self) -> (usize, Option<usize>) {
        (self.left as usize, Some(self.left as usize))
    }
}

impl ExactSizeIterator for Nodes<'_> {}

impl FusedIterator for Nodes<'_> {}
