//! The links between nodes, by which walks go forwards, backwards and down with neither recursion
//! nor memory.
//!
//! A node follows all that is below it. The next member of the node around it is given by a
//! field that isn't needed otherwise, because what it says is known without it: of a literal `bytes`,
//! which is its length; of a component `start`, which is its own index; of a node with members
//! `count`, which a walk over them finds.

use crate::sys::{COMPONENT, LITERAL, RawNode};

/// The index of the first of all nodes below a node, or its own if there is none.
pub(crate) fn begin(nodes: &[RawNode], index: u32) -> u32 {
    let node = &nodes[index as usize];
    if is_leaf(node) { index } else { node.start as u32 } // A u32 counts the nodes.
}

/// The index of the next member of the node around a linked one, and of the last member that of the
/// first.
pub(crate) fn next(nodes: &[RawNode], index: u32) -> u32 {
    let node = &nodes[index as usize];
    match node.what {
        LITERAL => node.bytes,
        COMPONENT => node.start as u32, // It was made of a u32, as the third is.
        _ => node.count as u32,
    }
}

/// How many members end before a place. The first node of all below them has the index `first`.
pub(crate) fn count(nodes: &[RawNode], first: u32, end: u32) -> u32 {
    let (mut count, mut rest) = (0, end);
    while rest > first {
        rest = begin(nodes, rest - 1);
        count += 1;
    }
    count
}

/// Has each node with members say again how many they are.
pub(crate) fn restore_counts(nodes: &mut [RawNode]) {
    for index in 0..nodes.len() {
        if !is_leaf(&nodes[index]) {
            let (first, end) = (begin(nodes, index as u32), index as u32); // A u32 counts them.
            nodes[index].count = count(nodes, first, end) as usize;
        }
    }
}

/// Whether a node has no members.
pub(crate) fn is_leaf(node: &RawNode) -> bool {
    matches!(node.what, LITERAL | COMPONENT)
}

/// Says which member is next to a node.
fn set_next(node: &mut RawNode, next: u32) {
    match node.what {
        LITERAL => node.bytes = next,
        COMPONENT => node.start = next as usize,
        _ => node.count = next as usize,
    }
}

/// Links the members of each node in a ring, and the items. It answers how many items there are, and
/// `None` if the nodes are nested in no order, or one has other members than it says.
#[inline(never)]
pub(crate) fn link(nodes: &mut [RawNode]) -> Option<u32> {
    for index in 0..nodes.len() {
        let node = nodes[index];
        if !is_leaf(&node) {
            let begin = u32::try_from(node.start).ok()?;
            let count = link_members(nodes, begin, index as u32)?;
            if count as usize != node.count {
                return None;
            }
        }
    }
    link_members(nodes, 0, nodes.len() as u32)
}

/// Links the members that end before a place, and answers how many there are. The first node of
/// all below the first member has the index `first`.
fn link_members(nodes: &mut [RawNode], first: u32, end: u32) -> Option<u32> {
    if first >= end {
        return (first == end).then_some(0);
    }
    let last = end - 1;
    let (mut member, mut count) = (last, 1);
    while begin(nodes, member) > first {
        let previous = begin(nodes, member) - 1;
        set_next(&mut nodes[previous as usize], member);
        (member, count) = (previous, count + 1);
    }
    let is_whole = begin(nodes, member) == first;
    set_next(&mut nodes[last as usize], member);
    is_whole.then_some(count)
}
