//! Lists that a description keeps: made when a text was read, or constants.

use alloc::boxed::Box;
use core::ops::Deref;
use core::slice::from_ref;

use crate::sys::{self, RawNode};

/// A list of its own, or a constant one. Of one value it takes no block.
#[derive(Debug, Clone)]
pub(crate) enum Kept<T: 'static> {
    One(T),
    Own(Box<[T]>),
    Constant(&'static [T]),
}

impl Kept<RawNode> {
    /// A copy of these nodes. `None` if there is no memory for it.
    #[inline]
    pub(crate) fn copied(nodes: &[RawNode]) -> Option<Self> {
        match nodes {
            [node] => Some(Self::One(*node)),
            _ => sys::boxed(nodes).map(Self::Own),
        }
    }
}

impl<T> Deref for Kept<T> {
    type Target = [T];

    #[inline]
    fn deref(&self) -> &[T] {
        match self {
            Self::One(value) => from_ref(value),
            Self::Own(list) => list,
            Self::Constant(list) => list,
        }
    }
}
