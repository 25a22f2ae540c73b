//! Lists of nodes that these tests make up, as the library would answer them.

use std::format;
use std::hash::{DefaultHasher, Hash, Hasher};
use std::string::String;
use std::vec::Vec;

use super::{BuildError, Tree};
use crate::literal::Literals;
use crate::node::{Item, Members, Node, Nodes};
use crate::parts::{Part, Parts};
use crate::sys::RawNode;

const LITERALS: &str = "abcdé";

const A: RawNode = literal(0, 1);
const B: RawNode = literal(1, 1);
const C: RawNode = literal(2, 1);

const fn node(what: u8, start: usize, count: usize) -> RawNode {
    RawNode {
        what,
        component: 0,
        padding: 0,
        sign_is_mandatory: 0,
        case_sensitive: 0,
        one_indexed: 0,
        is_uppercase: 0,
        digits: 0,
        trailing_input: 0,
        format: 0,
        ignored: 0,
        bytes: 0,
        start,
        count,
    }
}

const fn literal(start: usize, count: usize) -> RawNode {
    node(1, start, count)
}

const fn compound(start: usize, count: usize) -> RawNode {
    node(3, start, count)
}

const fn skipped(start: usize) -> RawNode {
    RawNode { format: 1, ..node(4, start, 1) }
}

const fn optional(start: usize) -> RawNode {
    RawNode { format: 2, ..node(4, start, 1) }
}

const fn first(start: usize, count: usize) -> RawNode {
    node(5, start, count)
}

/// Nodes, the items that they are, and what a formatter writes of them.
const LISTS: &[(&[RawNode], &str, &str)] = &[
    (&[], "[]", ""),
    (&[A, B], r#"[Literal("a"), Literal("b")]"#, "ab"),
    (&[literal(4, 2)], r#"[Literal("é")]"#, "é"),
    (&[compound(0, 0)], "[Compound([])]", ""),
    (&[A, compound(1, 0), B], r#"[Literal("a"), Compound([]), Literal("b")]"#, "ab"),
    (
        &[A, B, compound(0, 2), C],
        r#"[Compound([Literal("a"), Literal("b")]), Literal("c")]"#,
        "abc",
    ),
    (
        &[A, B, skipped(1), C],
        r#"[Literal("a"), Optional { format: false, item: Literal("b") }, Literal("c")]"#,
        "ac",
    ),
    (
        &[A, B, optional(1), C],
        r#"[Literal("a"), Optional { format: true, item: Literal("b") }, Literal("c")]"#,
        "abc",
    ),
    (&[first(0, 0), A], r#"[First([]), Literal("a")]"#, "a"),
    (&[A, B, first(0, 2), C], r#"[First([Literal("a"), Literal("b")]), Literal("c")]"#, "ac"),
    // Alternatives of which the first is a compound with alternatives at its end.
    (
        &[A, B, C, first(1, 2), compound(0, 2), C, first(0, 2), B],
        concat!(
            r#"[First([Compound([Literal("a"), First([Literal("b"), Literal("c")])]), "#,
            r#"Literal("c")]), Literal("b")]"#
        ),
        "abb",
    ),
    (
        &[compound(0, 0), A, first(0, 2), optional(0), B],
        r#"[Optional { format: true, item: First([Compound([]), Literal("a")]) }, Literal("b")]"#,
        "b",
    ),
    (
        &[A, skipped(0), B, first(0, 2), C],
        r#"[First([Optional { format: false, item: Literal("a") }, Literal("b")]), Literal("c")]"#,
        "c",
    ),
];

fn literal_text(part: Part<'_>) -> &str {
    match part {
        Part::Literal(text) => text,
        Part::Component(component) => panic!("the lists have no {component:?}"),
    }
}

/// The tree of a list, whose literals are in the text of all of them.
fn build(nodes: &[RawNode]) -> Result<Tree<'static>, BuildError> {
    Tree::build(&mut nodes.to_vec(), Literals::new(LITERALS, LITERALS.as_bytes()))
}

#[test]
fn items_and_parts() {
    for (nodes, items, written) in LISTS {
        let tree = build(nodes).expect("these are lists");
        let members = Members::items(&tree);
        assert_eq!(format!("{members:?}"), *items);
        let parts = Parts::new(&tree);
        let literals: String = parts.map(literal_text).collect();
        assert_eq!(literals, *written, "{items}");
        assert_eq!(Nodes::new(&tree).count(), nodes.len(), "{items}");
    }
}

/// Each walk goes backwards as it goes forwards, and knows how much is left.
#[test]
fn backwards() {
    for (nodes, items, _) in LISTS {
        let tree = build(nodes).expect("these are lists");
        let mut forwards: Vec<_> = Members::items(&tree).map(|it| format!("{it:?}")).collect();
        forwards.reverse();
        let backwards: Vec<_> = Members::items(&tree).rev().map(|it| format!("{it:?}")).collect();
        assert_eq!(backwards, forwards, "{items}");
        assert_eq!(Members::items(&tree).len(), forwards.len(), "{items}");

        let mut forwards: Vec<_> = Parts::new(&tree).collect();
        forwards.reverse();
        assert_eq!(Parts::new(&tree).rev().collect::<Vec<_>>(), forwards, "{items}");
        assert_eq!(Parts::new(&tree).len(), forwards.len(), "{items}");

        let mut nodes = Nodes::new(&tree);
        for left in (0..nodes.len()).rev() {
            assert!(nodes.next().is_some() && nodes.len() == left, "{items}");
        }
        assert!(nodes.next().is_none(), "{items}");
    }
}

/// From both ends the same members come, each once.
#[test]
fn from_both_ends() {
    let tree = build(&[A, B, compound(0, 2), C, A]).expect("this is a list");
    let mut members = Members::items(&tree);
    assert_eq!(format!("{:?}", members.next_back()), r#"Some(Literal("a"))"#);
    let first = r#"Some(Compound([Literal("a"), Literal("b")]))"#;
    assert_eq!(format!("{:?}", members.next()), first);
    assert_eq!(format!("{:?}", members.next_back()), r#"Some(Literal("c"))"#);
    assert!(members.next().is_none() && members.next_back().is_none());
}

/// How many members the nodes have that are a compound or have alternatives.
fn counts(tree: &Tree<'_>) -> Vec<usize> {
    let count = |item: Item<'_>| match item.node() {
        Node::Compound(members) | Node::First(members) => Some(members.len()),
        Node::Literal(_) | Node::Component(_) | Node::Optional { .. } => None,
    };
    Nodes::new(tree).filter_map(count).collect()
}

#[test]
fn members_are_counted() {
    let nodes = [A, B, first(0, 2), C, A, B, compound(3, 3), C, compound(0, 3), compound(9, 0)];
    let tree = build(&nodes).expect("this is a list");
    assert_eq!(counts(&tree), [3, 2, 3, 0]);
    assert_eq!(Members::items(&tree).len(), 2);
}

/// Two trees are equal if they have the same nodes, wherever their literals are.
#[test]
fn equality() {
    let texts = [("ab: cd", "abcd"), ("cd; ab", "abcd")];
    let trees = texts.map(|(text, bytes)| {
        let mut nodes = [literal(0, 2), literal(3, 1), optional(1)];
        Tree::build(&mut nodes, Literals::new(text, bytes.as_bytes())).expect("this is a list")
    });
    assert_eq!(trees[0], trees[1]);
    assert_eq!(hash(&trees[0]), hash(&trees[1]));
    for (nodes, items, _) in LISTS {
        for (others, other_items, _) in LISTS {
            let is_same = build(nodes).ok() == build(others).ok();
            assert_eq!(is_same, items == other_items, "{items} and {other_items}");
        }
    }
}

fn hash(tree: &Tree<'_>) -> u64 {
    let mut state = DefaultHasher::new();
    tree.hash(&mut state);
    state.finish()
}

/// Lists that the library doesn't answer.
const BROKEN: &[&[RawNode]] = &[
    &[node(0, 0, 0)],
    &[node(6, 0, 0)],
    &[node(4, 0, 1)],
    &[literal(5, 1)],
    &[literal(6, 1)],
    &[literal(1, usize::MAX)],
    &[literal(1, 0)],
    &[compound(1, 1)],
    &[compound(2, 0)],
    &[compound(usize::MAX, 0)],
    &[A, compound(0, 0)],
    &[A, compound(0, 2)],
    &[A, compound(0, 1), compound(1, 1)],
    &[A, optional(1)],
    &[A, B, RawNode { count: 2, ..optional(0) }],
];

#[test]
fn what_is_no_list_is_not_taken() {
    for nodes in BROKEN {
        assert_eq!(build(nodes).err(), Some(BuildError::Malformed), "{nodes:?}");
    }
}

/// A component is decoded when it is looked at, and then it has to be one.
#[test]
#[should_panic(expected = "the nodes are as the header says")]
fn what_is_no_component_is_not_shown() {
    let tree = build(&[node(2, 0, 0)]).expect("its component isn't looked at");
    Parts::new(&tree).next();
}
