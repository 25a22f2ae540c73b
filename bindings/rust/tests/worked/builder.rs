//! Descriptions built part by part, the texts that they come to, and their items.

use crate::rows::Tree::{self, Compound, First, Literal, Optional};
use crate::rows::expect_items;
use timefd::{Component as C, DescriptionBuilder, FaultKind, Padding, ParseError};

const DAY: C = C::Day { padding: Padding::Zero };
const MINUTE: C = C::Minute { padding: Padding::None };

fn builder() -> DescriptionBuilder {
    DescriptionBuilder::new()
}

/// Expects that a builder comes to a text, and what it builds to these items.
fn expect(builder: DescriptionBuilder, text: &str, items: &[Tree]) {
    assert_eq!(builder.text(), text);
    let description = builder.build().expect(text);
    assert_eq!(description.text(), text);
    expect_items(text, description.items(), items);
}

#[test]
fn parts_come_to_a_text() {
    expect(builder(), "", &[]);
    expect(builder().component(DAY), "[day]", &[Tree::Component(DAY)]);
    let literal = builder().literal(r"[\]").component(MINUTE).literal(" né");
    expect(
        literal,
        r"\[\\\][minute padding:none] né",
        &[Literal("["), Literal(r"\"), Literal("]"), Tree::Component(MINUTE), Literal(" né")],
    );
    let joined = builder().literal("a").parts(builder().component(DAY).literal("b"));
    expect(joined, "a[day]b", &[Literal("a"), Tree::Component(DAY), Literal("b")]);
}

#[test]
fn parts_are_nested() {
    let skipped = builder().literal(":").component(MINUTE);
    expect(
        builder().component(DAY).optional(true, skipped.clone()),
        "[day][optional [:[minute padding:none]]]",
        &[
            Tree::Component(DAY),
            Optional(true, &Compound(&[Literal(":"), Tree::Component(MINUTE)])),
        ],
    );
    expect(
        builder().optional(false, skipped),
        "[optional format:false [:[minute padding:none]]]",
        &[Optional(false, &Compound(&[Literal(":"), Tree::Component(MINUTE)]))],
    );
    expect(
        builder().first([builder().component(DAY), builder().literal(" x ")]),
        "[first [[day]] [ x ]]",
        &[First(&[Tree::Component(DAY), Literal(" x ")])],
    );
    expect(builder().optional(true, builder()), "[optional []]", &[Optional(true, &Compound(&[]))]);
}

#[test]
fn what_is_no_description_is_refused() {
    let kind = |builder: DescriptionBuilder| match builder.build() {
        Err(ParseError::Invalid(fault)) => Some((fault.kind(), fault.index())),
        _ => None,
    };
    assert_eq!(kind(builder().literal("a").first([])), Some((FaultKind::MissingAlternative, 7)));

    let nested = |depth| (0..depth).fold(builder(), |inner, _| builder().optional(true, inner));
    assert!(nested(127).build().is_ok());
    assert_eq!(kind(nested(128)).map(|fault| fault.0), Some(FaultKind::NestedTooDeep));
}
