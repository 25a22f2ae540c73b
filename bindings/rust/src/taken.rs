//! The nodes of a description as the library takes them.

use crate::buffer;
use crate::description::FormatDescription;
use crate::literal::ASCII;
use crate::sys::{NodeRoom, RawNode};
use crate::tree::{Shape, Walk};

impl FormatDescription<'_> {
    /// Calls with the nodes that a walk goes over, and the bytes of their literals. It takes no
    /// memory where they are few, and `None` says that there is none.
    #[inline]
    pub(crate) fn with_nodes<T>(
        &self,
        walk: Walk,
        call: impl FnOnce(&[RawNode], &[u8]) -> T,
    ) -> Option<T> {
        match self.tree.as_taken() {
            Some((nodes, literals)) => Some(call(nodes, literals.as_bytes())),
            None => self.with_copied(walk, call),
        }
    }

    /// The same with a copy of what literals are borrowed from, and of the nodes if some have members.
    #[inline(never)]
    fn with_copied<T>(&self, walk: Walk, call: impl FnOnce(&[RawNode], &[u8]) -> T) -> Option<T> {
        let len = ASCII.len() + self.text().len();
        if len <= SHORT_LITERALS {
            let mut literals = [0; SHORT_LITERALS];
            let literals = &mut literals[..len];
            self.copy_literals(literals);
            self.with_walked(walk, |nodes| call(nodes, literals))
        } else {
            let mut literals = buffer::filled(len, 0)?;
            self.copy_literals(&mut literals);
            self.with_walked(walk, |nodes| call(nodes, &literals))
        }
    }

    /// Calls with the nodes that a walk goes over.
    #[inline]
    fn with_walked<T>(&self, walk: Walk, call: impl FnOnce(&[RawNode]) -> T) -> Option<T> {
        if let Shape::Flat { .. } = self.tree.shape {
            return Some(call(&self.tree.nodes));
        }
        let count = self.tree.walked_len(walk);
        if count <= SHORT_NODES {
            let mut room = NodeRoom::<SHORT_NODES>::new();
            let nodes = room.zeroed(count);
            self.tree.copy_walked(walk, nodes);
            Some(call(nodes))
        } else {
            let mut nodes = buffer::filled(count, RawNode::default())?;
            self.tree.copy_walked(walk, &mut nodes);
            Some(call(&nodes))
        }
    }

    /// Copies what literals are borrowed from to a buffer that has room for it: ASCII, and the text after it.
    fn copy_literals(&self, literals: &mut [u8]) {
        let (ascii, text) = literals.split_at_mut(ASCII.len());
        ascii.copy_from_slice(ASCII.as_bytes());
        text.copy_from_slice(self.text().as_bytes());
    }
}

/// Room on the stack for what most descriptions have.
const SHORT_NODES: usize = 24;
const SHORT_LITERALS: usize = 320;
