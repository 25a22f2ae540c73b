//! Descriptions as values: compared, hashed, walked through from both ends.

use std::collections::HashSet;

use crate::rows::{ONE, Parse, STRFTIME, THREE, TWO};
use timefd::{FormatDescription, Language, Node, Part, UnknownLanguage, UnknownVersion, Version};

#[test]
fn equal_where_the_nodes_are() {
    let three = THREE.parse("[day]-[month]").expect("a description");
    let strftime = STRFTIME.parse("%d-%m").expect("a description");
    assert_eq!(three, strftime);
    assert_ne!(three, THREE.parse("[day]-[month padding:none]").expect("a description"));
    let all: HashSet<FormatDescription<'_>> = [three.clone(), strftime].into();
    assert_eq!(all.len(), 1);
    assert_eq!((three.text(), three.version()), ("[day]-[month]", Some(Version::Three)));
    assert_eq!(STRFTIME.parse("%d").map(|it| it.language()), Ok(Language::Strftime));
}

/// All literals of texts that hold the same bytes elsewhere too.
#[test]
fn literals_are_those_of_the_text() {
    let rows = [
        (ONE, "[day]d[[a[month]ay[[", "d[aay["),
        (TWO, r"\[[day]padding\][hour padding:none]hour", "[padding]hour"),
        (THREE, r"[optional [ [day]]] [first [a [month]b] [x]]é\[é", "  a bxé[é"),
        (STRFTIME, "%n ab%n\n%t:%R:%%d%d%%", "\n ab\n\n\t:::%d%"),
        (STRFTIME, "%d is not %% of a day, %d %% is", " is not % of a day,  % is"),
    ];
    for (language, text, expected) in rows {
        let description = language.parse(text).expect(text);
        let literals = description.nodes().filter_map(|item| match item.node() {
            Node::Literal(literal) => Some(literal),
            _ => None,
        });
        assert_eq!(literals.collect::<String>(), expected, "{text:?} in {language:?}");
    }
}

#[test]
fn from_both_ends() {
    let description = STRFTIME.parse("%d %R").expect("a description");
    assert_eq!(description.items().len(), 3);
    assert_eq!((&description).into_iter().count(), 3);
    assert_eq!(description.parts().len(), 5);
    assert_eq!(description.nodes().len(), 6);
    let mut parts = description.parts();
    assert!(matches!(parts.next_back(), Some(Part::Component(_))));
    assert_eq!(parts.next_back(), Some(Part::Literal(":")));
    assert!(matches!(parts.next(), Some(Part::Component(_))));
    assert_eq!((parts.next(), parts.len()), (Some(Part::Literal(" ")), 1));
}

#[test]
fn versions_by_number_and_by_text() {
    for (number, version) in [(1, Version::One), (2, Version::Two), (3, Version::Three)] {
        assert_eq!(Version::try_from(number), Ok(version));
        assert_eq!(number.to_string().parse(), Ok(version));
        assert_eq!((u8::from(version), version.to_string()), (number, number.to_string()));
    }
    assert_eq!(Version::try_from(0), Err(UnknownVersion));
    assert_eq!("03".parse::<Version>(), Err(UnknownVersion));
}

#[test]
fn languages_by_text() {
    for (text, language) in [("1", ONE), ("2", TWO), ("3", THREE), ("strftime", STRFTIME)] {
        assert_eq!((text.parse(), language.to_string().as_str()), (Ok(language), text));
    }
    for text in ["", "0", "4", "03", "Strftime", "strftime "] {
        assert_eq!(text.parse::<Language>(), Err(UnknownLanguage), "{text:?}");
    }
    assert!(ONE < TWO && TWO < THREE && THREE < STRFTIME);
}

/// What is made of a text that is gone is as what borrows it.
#[test]
fn owned_descriptions_are_kept() {
    let rows = [
        (ONE, "[day]d[[a[month]ay[["),
        (THREE, r"[optional [ [day]]] [first [a [month]b] [x]]é\[é"),
        (STRFTIME, "%n ab%n\n%t:%R:%%d%d%%"),
        (STRFTIME, ""),
    ];
    for (language, text) in rows {
        let borrowed = language.parse(text).expect(text);
        let copy = text.to_owned();
        let owned: FormatDescription<'static> = language.parse(&copy).expect(text).into_owned();
        drop(copy);
        assert_eq!((&owned, owned.language(), owned.text()), (&borrowed, language, text));
        assert_eq!(owned.max_bytes_needed(), borrowed.max_bytes_needed());
        assert!(owned.parts().eq(borrowed.parts()), "{text:?}");
        assert_eq!(format!("{owned:?} {owned}"), format!("{borrowed:?} {borrowed}"));
        assert_eq!(owned.clone().into_owned(), borrowed);
    }
}
