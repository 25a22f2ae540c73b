//! How a description keeps its nodes: as the library wrote them, in its order, with the links that
//! walks go by and the places of literals. A node is decoded when it is looked at.

use alloc::borrow::Cow;
use alloc::boxed::Box;
use core::hash::{Hash, Hasher};

use crate::content::{Content, Nesting};
use crate::kept::Kept;
use crate::links;
use crate::literal::{ASCII, Literals};
use crate::sys::{COMPONENT, LITERAL, RawNode};
use crate::written::written;

/// Why a description is not made.
#[derive(Debug, PartialEq, Eq)]
pub(crate) enum BuildError {
    /// It is no list of nodes as the header has them, which the library never answers.
    Malformed,
    /// There is no memory for the nodes.
    OutOfMemory,
}

/// The nodes of a description.
#[derive(Debug, Clone)]
pub(crate) struct Tree<'a> {
    /// What the literals are borrowed from.
    pub(crate) text: Cow<'a, str>,
    /// The nodes as the library wrote them, but that `start` of a literal is the place by which it is
    /// borrowed, and that they are linked where some have members.
    pub(crate) nodes: Kept<RawNode>,
    pub(crate) shape: Shape,
}

/// Which nodes are gone over.
#[derive(Debug, Clone, Copy)]
pub(crate) enum Walk {
    /// What a formatter writes.
    Written,
    /// All, as a reader needs them.
    All,
}

/// What is known of all nodes.
#[derive(Debug, Clone)]
pub(crate) enum Shape {
    /// None has members: each is an item, and each is written.
    Flat {
        /// Whether each literal has one byte, so that all are borrowed from `ASCII`.
        is_ascii: bool,
    },
    /// Some have members.
    Nested {
        /// How many are items.
        items: u32,
        /// The indices of what a formatter writes, in turn.
        written: Kept<u32>,
    },
}

impl<'a> Tree<'a> {
    /// The tree of the library's list, which is changed and copied, and of its literals.
    #[inline]
    pub(crate) fn build(
        nodes: &mut [RawNode],
        mut literals: Literals<'a, '_>,
    ) -> Result<Self, BuildError> {
        let shape = shape_of(nodes, &mut literals)?;
        let nodes = Kept::copied(nodes).ok_or(BuildError::OutOfMemory)?;
        Ok(Self { text: Cow::Borrowed(literals.text), nodes, shape })
    }

    /// The tree of the library's list, which it keeps, and of its literals.
    pub(crate) fn keep(
        mut nodes: Box<[RawNode]>,
        mut literals: Literals<'a, '_>,
    ) -> Result<Self, BuildError> {
        let shape = shape_of(&mut nodes, &mut literals)?;
        Ok(Self { text: Cow::Borrowed(literals.text), nodes: Kept::Own(nodes), shape })
    }
}

/// What is known of all nodes of a list, which is changed as a tree keeps it.
#[inline]
fn shape_of(nodes: &mut [RawNode], literals: &mut Literals<'_, '_>) -> Result<Shape, BuildError> {
    u32::try_from(nodes.len()).map_err(|_| BuildError::OutOfMemory)?;
    let is_flat = settle(nodes, literals).ok_or(BuildError::Malformed)?;
    if is_flat { Ok(Shape::Flat { is_ascii: literals.are_ascii() }) } else { link(nodes) }
}

/// Gives each literal the place by which it is borrowed, and answers whether nodes are flat: literals and
/// components alone. `None` if a literal has no place.
#[inline]
fn settle(nodes: &mut [RawNode], literals: &mut Literals<'_, '_>) -> Option<bool> {
    let mut is_flat = true;
    for node in nodes.iter_mut().filter(|node| node.what != COMPONENT) {
        if node.what == LITERAL {
            node.start = literals.place(node.start, node.count)?;
        } else {
            is_flat = false;
        }
    }
    Some(is_flat)
}

/// Links a list that isn't flat.
#[inline(never)]
fn link(nodes: &mut [RawNode]) -> Result<Shape, BuildError> {
    for node in nodes.iter().filter(|node| !links::is_leaf(node)) {
        let nesting = Nesting::of(node).ok_or(BuildError::Malformed)?;
        let is_one = matches!(nesting, Nesting::Optional | Nesting::Unwritten);
        if is_one && node.count != 1 {
            return Err(BuildError::Malformed);
        }
    }
    let items = links::link(nodes).ok_or(BuildError::Malformed)?;
    let written = written(nodes).ok_or(BuildError::OutOfMemory)?;
    Ok(Shape::Nested { items, written: Kept::Own(written) })
}

impl Tree<'_> {
    /// The same with a text of its own, from which its literals are borrowed.
    pub(crate) fn into_owned(self) -> Tree<'static> {
        let Self { text, nodes, shape } = self;
        Tree { text: Cow::Owned(text.into_owned()), nodes, shape }
    }

    /// How many nodes there are.
    pub(crate) fn len(&self) -> u32 {
        self.nodes.len() as u32 // It fits, as was tested.
    }

    /// How many of them are items.
    pub(crate) fn items(&self) -> u32 {
        match self.shape {
            Shape::Flat { .. } => self.len(),
            Shape::Nested { items, .. } => items,
        }
    }

    /// What a node is.
    #[inline]
    pub(crate) fn content(&self, index: u32) -> Content<'_> {
        Content::of(&self.nodes[index as usize], &self.text)
    }

    /// The greatest length of what a node is shown as, in bytes, at most `u32::MAX`.
    pub(crate) fn max_bytes(&self, index: u32) -> usize {
        let node = &self.nodes[index as usize];
        match node.what {
            LITERAL => node.count.min(u32::MAX as usize),
            _ => node.bytes as usize,
        }
    }

    /// The index of the first of all nodes below a node, or its own if there is none.
    pub(crate) fn begin(&self, index: u32) -> u32 {
        links::begin(&self.nodes, index)
    }

    /// The index of the next member of the node around it, and of the last member that of the first.
    pub(crate) fn next(&self, index: u32) -> u32 {
        match self.shape {
            Shape::Flat { .. } if index + 1 == self.len() => 0,
            Shape::Flat { .. } => index + 1,
            Shape::Nested { .. } => links::next(&self.nodes, index),
        }
    }

    /// How many members a node has, whose first node of all below has the index `begin`.
    pub(crate) fn members(&self, index: u32, begin: u32) -> u32 {
        links::count(&self.nodes, begin, index)
    }

    /// How many nodes a formatter writes.
    pub(crate) fn written_len(&self) -> usize {
        self.walked_len(Walk::Written)
    }

    /// How many nodes a walk goes over.
    pub(crate) fn walked_len(&self, walk: Walk) -> usize {
        match (&self.shape, walk) {
            (Shape::Nested { written, .. }, Walk::Written) => written.len(),
            (Shape::Flat { .. }, _) | (_, Walk::All) => self.nodes.len(),
        }
    }

    /// The index of the node that a formatter writes at a place.
    pub(crate) fn written_at(&self, place: usize) -> u32 {
        match &self.shape {
            Shape::Flat { .. } => place as u32, // It indexes a list that a u32 counts.
            Shape::Nested { written, .. } => written[place],
        }
    }

    /// Copies the nodes that a walk goes over, in turn, to as many. They say again how many members
    /// they have.
    pub(crate) fn copy_walked(&self, walk: Walk, nodes: &mut [RawNode]) {
        match (&self.shape, walk) {
            (Shape::Flat { .. }, _) => nodes.copy_from_slice(&self.nodes),
            (Shape::Nested { written, .. }, Walk::Written) => {
                for (node, index) in nodes.iter_mut().zip(written.iter()) {
                    *node = self.nodes[*index as usize];
                }
            }
            (Shape::Nested { .. }, Walk::All) => {
                nodes.copy_from_slice(&self.nodes);
                links::restore_counts(nodes);
            }
        }
    }

    /// The nodes as the library takes them, with the text that all their literals are borrowed from, if
    /// nothing has to be copied for that.
    pub(crate) fn as_taken(&self) -> Option<(&[RawNode], &'static str)> {
        match self.shape {
            Shape::Flat { is_ascii: true } => Some((&self.nodes, ASCII)),
            Shape::Flat { is_ascii: false } | Shape::Nested { .. } => None,
        }
    }
}

/// Two are equal if their nodes are, wherever their literals are.
impl PartialEq for Tree<'_> {
    fn eq(&self, other: &Self) -> bool {
        let is_same = |index| {
            self.content(index) == other.content(index)
                && self.max_bytes(index) == other.max_bytes(index)
        };
        self.len() == other.len() && (0..self.len()).all(is_same)
    }
}

impl Eq for Tree<'_> {}

impl Hash for Tree<'_> {
    fn hash<H: Hasher>(&self, state: &mut H) {
        self.len().hash(state);
        for index in 0..self.len() {
            self.content(index).hash(state);
        }
    }
}

#[cfg(test)]
#[path = "tree_tests.rs"]
mod tests;
