//! What a node is, from the numbers that the library wrote for it.

use crate::component::Component;
use crate::decode;
use crate::literal;
use crate::modifier::boolean;
use crate::sys::{COMPONENT, COMPOUND, FIRST, LITERAL, OPTIONAL, RawNode};

/// What a node is.
#[derive(Debug, Clone, Copy, PartialEq, Eq, Hash)]
pub(crate) enum Content<'a> {
    Literal(&'a str),
    Component(Component),
    /// A node with members. The first node of all below it has this index, or it itself.
    Nested(Nesting, u32),
}

/// Why a node has members.
#[derive(Debug, Clone, Copy, PartialEq, Eq, Hash)]
pub(crate) enum Nesting {
    Compound,
    /// With the one member that a formatter writes, or one that it doesn't.
    Optional,
    Unwritten,
    First,
}

/// What each node is that the library wrote.
const AS_THE_HEADER_SAYS: &str = "the nodes are as the header says";

impl<'a> Content<'a> {
    /// What a node of a tree is, whose literals are borrowed from this text.
    #[inline]
    pub(crate) fn of(node: &RawNode, text: &'a str) -> Self {
        match node.what {
            LITERAL => Self::Literal(literal::borrowed(text, node.start, node.count)),
            COMPONENT => Self::Component(decode::component(node).expect(AS_THE_HEADER_SAYS)),
            _ => Self::Nested(nesting(node), node.start as u32), // A u32 counts the nodes.
        }
    }
}

/// Why a node has members. Most texts have none that does.
#[cold]
fn nesting(node: &RawNode) -> Nesting {
    Nesting::of(node).expect(AS_THE_HEADER_SAYS)
}

impl Nesting {
    /// Why a node has members that is neither a literal nor a component.
    pub(crate) fn of(node: &RawNode) -> Option<Self> {
        Some(match node.what {
            COMPOUND => Self::Compound,
            OPTIONAL if boolean(node.format)? => Self::Optional,
            OPTIONAL => Self::Unwritten,
            FIRST => Self::First,
            _ => return None,
        })
    }
}
