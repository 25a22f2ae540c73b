//! Rows of texts, and what they have to be.

pub use timefd::Language;
use timefd::{Component, FormatDescription, Item, Members, Node, ParseError, Version};

pub const ONE: Language = Language::Version(Version::One);
pub const TWO: Language = Language::Version(Version::Two);
pub const THREE: Language = Language::Version(Version::Three);
pub const STRFTIME: Language = Language::Strftime;

pub const VERSIONS: &[Language] = &[ONE, TWO, THREE];

/// Languages parse texts in the rows.
pub trait Parse {
    fn parse(self, text: &str) -> Result<FormatDescription<'_>, ParseError>;
}

impl Parse for Language {
    fn parse(self, text: &str) -> Result<FormatDescription<'_>, ParseError> {
        FormatDescription::parse(self, text)
    }
}

/// What a node has to be.
#[derive(Debug, Clone, Copy)]
pub enum Tree {
    Literal(&'static str),
    Component(Component),
    Compound(&'static [Tree]),
    Optional(bool, &'static Tree),
    First(&'static [Tree]),
}

/// Expects that the items are these trees, node by node.
pub fn expect_items(row: &str, items: Members<'_>, expected: &[Tree]) {
    assert_eq!(items.clone().count(), expected.len(), "{row}: {items:?}");
    for (item, tree) in items.zip(expected) {
        expect_tree(row, item, tree);
    }
}

fn expect_tree(row: &str, item: Item<'_>, expected: &Tree) {
    match (item.node(), *expected) {
        (Node::Literal(text), Tree::Literal(literal)) => assert_eq!(text, literal, "{row}"),
        (Node::Component(found), Tree::Component(component)) => {
            assert_eq!(found, component, "{row}");
        }
        (Node::Compound(members), Tree::Compound(trees))
        | (Node::First(members), Tree::First(trees)) => expect_items(row, members, trees),
        (Node::Optional { format, item }, Tree::Optional(flag, tree)) => {
            assert_eq!(format, flag, "{row}");
            expect_tree(row, item, tree);
        }
        (node, _) => panic!("{row}: {node:?} is not {expected:?}"),
    }
}
