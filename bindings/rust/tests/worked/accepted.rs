//! Texts that are accepted, each node of what they are, and how many bytes a rendering has at most.

use std::num::NonZeroU16;

use crate::rows::Tree::{self, Compound, First, Literal, Optional};
use crate::rows::{Language, ONE, Parse, STRFTIME, THREE, TWO, VERSIONS, expect_items};
use timefd::{Component as C, FormatDescription, Node, Padding, Version};

const DAY: Tree = Tree::Component(C::Day { padding: Padding::Zero });
const DAY_UNPADDED: Tree = Tree::Component(C::Day { padding: Padding::None });
const MONTH: Tree = Tree::Component(C::MonthNumerical { padding: Padding::Zero });
const HOUR: Tree = Tree::Component(C::Hour24 { padding: Padding::Zero });
const WEEKDAY: Tree = Tree::Component(C::WeekdayLong { case_sensitive: true });
const LONG_MONTH: Tree = Tree::Component(C::MonthLong { case_sensitive: true });
const SUNDAY_WEEK: Tree = Tree::Component(C::WeekNumberSunday { padding: Padding::Zero });
const LAST_TWO: Tree = Tree::Component(C::CalendarYearLastTwo { padding: Padding::Zero });

const STANDARD_YEAR: Tree = Tree::Component(C::CalendarYearFullStandardRange {
    padding: Padding::Zero,
    sign_is_mandatory: false,
});
const EXTENDED_YEAR: Tree = Tree::Component(C::CalendarYearFullExtendedRange {
    padding: Padding::Zero,
    sign_is_mandatory: false,
});

const fn ignore(count: u16) -> Tree {
    match NonZeroU16::new(count) {
        Some(count) => Tree::Component(C::Ignore { count }),
        None => panic!("nothing is ignored"),
    }
}

/// In which languages, which text, at most how many bytes, and the items.
type Row = (&'static [Language], &'static str, usize, &'static [Tree]);

const ITEMS: &[Row] = &[
    (&[ONE, TWO, THREE, STRFTIME], "", 0, &[]),
    (
        &[THREE],
        "[year]-[month]-[day]",
        11,
        &[STANDARD_YEAR, Literal("-"), MONTH, Literal("-"), DAY],
    ),
    (
        &[ONE, TWO],
        "[year]-[month]-[day]",
        13,
        &[EXTENDED_YEAR, Literal("-"), MONTH, Literal("-"), DAY],
    ),
    (&[THREE], "due [day]", 6, &[Literal("due "), DAY]),
    (&[ONE], "[[day]]", 6, &[Literal("["), Literal("day"), Literal("]"), Literal("]")]),
    (&[ONE], "[[[day]", 3, &[Literal("["), DAY]),
    (&[TWO], r"\[[day]]", 4, &[Literal("["), DAY, Literal("]")]),
    (&[THREE], r"\\\[\]", 3, &[Literal(r"\"), Literal("["), Literal("]")]),
    (&[ONE], r"é\é", 5, &[Literal(r"é\é")]),
    (&[THREE], "abc[day]", 5, &[Literal("abc"), DAY]),
    (&[ONE, TWO], "[hour repr:12 repr:24]", 2, &[HOUR]),
    (&[THREE], "[year repr:last_two]", 2, &[LAST_TWO]),
    (VERSIONS, "[ignore count:+5]", 0, &[ignore(5)]),
    (VERSIONS, "[ignore count:005]", 0, &[ignore(5)]),
    (VERSIONS, "[ignore count:65535]", 0, &[ignore(65535)]),
    (&[TWO], "[YEAR]", 7, &[EXTENDED_YEAR]),
    (&[ONE, TWO], "[month repr:long padding:none]", 9, &[LONG_MONTH]),
    (&[TWO], "[week_number REPR:Sunday]", 2, &[SUNDAY_WEEK]),
    (&[THREE], "[\nday\tpadding:none ]", 2, &[DAY_UNPADDED]),
    (&[THREE], "[weekday]", 9, &[WEEKDAY]),
];

const NESTED: &[Row] = &[
    (&[THREE], "[optional [[day]]]", 2, &[Optional(true, &DAY)]),
    (&[THREE], "[optional []]", 0, &[Optional(true, &Compound(&[]))]),
    (&[THREE], "[optional format:false [[weekday]]]", 0, &[Optional(false, &WEEKDAY)]),
    (
        &[THREE],
        "x[optional format:true [[month]:[day]]]",
        6,
        &[Literal("x"), Optional(true, &Compound(&[MONTH, Literal(":"), DAY]))],
    ),
    (&[THREE], "[first [a][b]]", 1, &[First(&[Literal("a"), Literal("b")])]),
    (&[THREE], "[first [a] [bcd]]", 1, &[First(&[Literal("a"), Literal("bcd")])]),
    (&[THREE], "[first []]", 0, &[First(&[Compound(&[])])]),
    (
        &[THREE],
        "[first [[day][optional [a]]] [[weekday]]]é",
        5,
        &[First(&[Compound(&[DAY, Optional(true, &Literal("a"))]), WEEKDAY]), Literal("é")],
    ),
];

const SPECIFICATIONS: &[Row] = &[
    (&[STRFTIME], "%-d", 2, &[DAY_UNPADDED]),
    (&[STRFTIME], "%_%", 1, &[Literal("%")]),
    (&[STRFTIME], "%n%t", 2, &[Literal("\n"), Literal("\t")]),
    (&[STRFTIME], "%Y-%m-%d", 13, &[EXTENDED_YEAR, Literal("-"), MONTH, Literal("-"), DAY]),
    (
        &[STRFTIME],
        "%F!",
        14,
        &[Compound(&[EXTENDED_YEAR, Literal("-"), MONTH, Literal("-"), DAY]), Literal("!")],
    ),
    (
        &[STRFTIME],
        "%R%z",
        10,
        &[
            Compound(&[HOUR, Literal(":"), Tree::Component(C::Minute { padding: Padding::Zero })]),
            Compound(&[
                Tree::Component(C::OffsetHour { sign_is_mandatory: true, padding: Padding::Zero }),
                Tree::Component(C::OffsetMinute { padding: Padding::Zero }),
            ]),
        ],
    ),
];

#[test]
fn each_node_is_as_expected() {
    for (languages, text, bytes, expected) in [ITEMS, NESTED, SPECIFICATIONS].concat() {
        for language in languages {
            let row = format!("{text:?} in {language:?}");
            let description = language.parse(text).expect(&row);
            expect_items(&row, description.items(), expected);
            assert_eq!(description.max_bytes_needed(), bytes, "{row}");
            let by_item = description.items().map(|item| item.max_bytes_needed());
            assert_eq!(by_item.sum::<usize>(), bytes, "{row}");
        }
    }
}

/// The deepest nesting, and a text that is far longer than the room of a first call.
#[test]
fn deep_and_long_texts() {
    let deep = format!("{}x{}", "[optional [".repeat(127), "]]".repeat(127));
    let description = FormatDescription::parse(Version::Three, &deep).expect("127 are the limit");
    assert_eq!(description.max_bytes_needed(), 1);
    let nodes: Vec<_> = description.nodes().map(|item| item.node()).collect();
    assert_eq!(nodes.len(), 128);
    let optional = nodes[..127].iter().all(|it| matches!(it, Node::Optional { format: true, .. }));
    assert!(optional && matches!(nodes[127], Node::Literal("x")));

    let long = "%%".repeat(10_000);
    let description =
        FormatDescription::parse(timefd::Language::Strftime, &long).expect("each is a literal");
    assert_eq!(description.items().count(), 10_000);
    assert!(description.items().all(|item| matches!(item.node(), Node::Literal("%"))));
    assert_eq!(description.max_bytes_needed(), 10_000);
}
