//! What a formatter writes of nodes of which some have members.

use alloc::boxed::Box;
use alloc::vec::Vec;

use crate::content::Nesting;
use crate::links;
use crate::sys::RawNode;

/// The indices of what a formatter writes of linked nodes, in turn. `None` if there is no memory
/// for them.
pub(crate) fn written(nodes: &[RawNode]) -> Option<Box<[u32]>> {
    let backwards = || Backwards { nodes, rest: nodes.len() as u32 };
    let mut indices = Vec::new();
    indices.try_reserve_exact(backwards().count()).ok()?;
    indices.extend(backwards());
    indices.reverse();
    Some(indices.into_boxed_slice())
}

/// What a formatter writes, from the last part to the first.
struct Backwards<'a> {
    nodes: &'a [RawNode],
    /// How many nodes are still in front.
    rest: u32,
}

impl Iterator for Backwards<'_> {
    type Item = u32;

    fn next(&mut self) -> Option<u32> {
        while let Some(index) = self.rest.checked_sub(1) {
            let node = &self.nodes[index as usize];
            self.rest = index;
            if links::is_leaf(node) {
                return Some(index);
            }
            let begin = links::begin(self.nodes, index);
            match Nesting::of(node) {
                Some(Nesting::Unwritten) => self.rest = begin,
                Some(Nesting::First) if begin < index => {
                    // The ring leads from the last alternative to the first.
                    self.rest = links::next(self.nodes, index - 1) + 1;
                }
                _ => {}
            }
        }
        None
    }
}
