//! What a formatter writes of a description.

use core::iter::FusedIterator;
use core::ops::Range;

use crate::component::Component;
use crate::content::Content;
use crate::tree::Tree;

/// A part of what a formatter writes.
#[derive(Debug, Clone, Copy, PartialEq, Eq)]
#[non_exhaustive]
pub enum Part<'a> {
    /// Text that is written as it is.
    Literal(&'a str),
    /// A part of a date or time.
    Component(Component),
}

/// What a formatter writes, in turn.
#[derive(Debug, Clone)]
#[must_use = "iterators do nothing unless they are gone through"]
pub struct Parts<'a> {
    tree: &'a Tree<'a>,
    /// The places of those that are left, among all that are written.
    left: Range<usize>,
}

impl<'a> Parts<'a> {
    pub(crate) fn new(tree: &'a Tree<'a>) -> Self {
        Self { tree, left: 0..tree.written_len() }
    }

    fn part(&self, place: usize) -> Part<'a> {
        match self.tree.content(self.tree.written_at(place)) {
            Content::Literal(text) => Part::Literal(text),
            Content::Component(component) => Part::Component(component),
            Content::Nested(..) => unreachable!("its members are written"),
        }
    }
}

impl<'a> Iterator for Parts<'a> {
    type Item = Part<'a>;

    fn next(&mut self) -> Option<Part<'a>> {
        self.left.next().map(|place| self.part(place))
    }

    fn size_hint(&self) -> (usize, Option<usize>) {
        self.left.size_hint()
    }
}

impl<'a> DoubleEndedIterator for Parts<'a> {
    fn next_back(&mut self) -> Option<Part<'a>> {
        self.left.next_back().map(|place| self.part(place))
    }
}

impl ExactSizeIterator for Parts<'_> {}

impl FusedIterator for Parts<'_> {}
