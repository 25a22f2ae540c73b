//! Formats that are accepted and refused. The rows are some of those of `timefd`.

use timefd::serde::{AnyFormat, OwnedFormat};
use timefd::{FormatDescription, Language};

use crate::languages::{ALL, ONE, STRFTIME, THREE, TWO, VERSIONS, read, write};

/// In which languages, which text, and how many bytes it reserves.
type Accepted = (&'static [Language], &'static str, usize);

const ACCEPTED: &[Accepted] = &[
    (ALL, "", 0),
    (&[THREE], "[year]-[month]-[day]", 11),
    (&[ONE, TWO], "[year]-[month]-[day]", 13),
    (&[ONE], "[[day]]", 6),
    (&[TWO], r"\[[day]]", 4),
    (&[THREE], r"\\\[\]", 3),
    (&[ONE, TWO], "[hour repr:12 repr:24]", 2),
    (&[TWO], "[YEAR]", 7),
    (&[THREE], "[\nday\tpadding:none ]", 2),
    (&[THREE], "[optional [[day]]]", 2),
    (&[THREE], "[first [[day][optional [a]]] [[weekday]]]é", 5),
    (&[STRFTIME], "%-d", 2),
    (&[STRFTIME], "%Y-%m-%d", 13),
    (&[STRFTIME], "%F!", 14),
];

/// In which languages, which text, and the index and the sentence of its fault.
type Refused = (&'static [Language], &'static str, usize, &'static str);

const REFUSED: &[Refused] = &[
    (VERSIONS, "due [day", 4, "unclosed opening bracket at byte index 4"),
    (&[TWO, THREE], "[[day]]", 0, "missing component name at byte index 0"),
    (VERSIONS, "[foo]", 1, "invalid component name `foo` at byte index 1"),
    (&[THREE], "a[YEAR]", 2, "invalid component name `YEAR` at byte index 2"),
    (&[THREE], "[hour repr:12 repr:24]", 14, "duplicate modifier `repr` at byte index 14"),
    (&[THREE], r"\[[day]]", 7, "expected right bracket to be escaped at byte index 7"),
    (&[THREE], r"é\é", 3, "expected valid escape sequence at byte index 3"),
    (
        &[ONE, TWO],
        "[optional [x]]",
        0,
        "optional item is not supported in runtime-parsed format descriptions at byte index 0",
    ),
    (&[STRFTIME], "%", 0, "expected valid escape sequence at byte index 0"),
    (&[STRFTIME], "%O", 1, "modifier is not supported at byte index 1"),
    (&[STRFTIME], "%_Z", 2, "component is not supported at byte index 2"),
    (&[STRFTIME], "%E", 1, "invalid component name `E` at byte index 1"),
];

#[test]
fn accepted() {
    for (languages, text, bytes) in ACCEPTED {
        for language in *languages {
            expect_accepted(*language, text, *bytes);
        }
    }
}

fn expect_accepted(language: Language, text: &str, bytes: usize) {
    let row = format!("{text:?} in {language:?}");
    let AnyFormat(owned) = read(language, text).expect(&row);
    assert_eq!((owned.language(), owned.text()), (language, text), "{row}");
    let borrowed: FormatDescription = read(language, text).expect(&row);
    assert_eq!((borrowed.language(), borrowed.text()), (language, text), "{row}");
    assert_eq!(borrowed.max_bytes_needed(), bytes, "{row}");
    assert_eq!(owned.description(), &borrowed, "{row}");
    assert_eq!(write(language, &owned).expect(&row), text, "{row}");
    assert_eq!(write(language, &borrowed).expect(&row), text, "{row}");
    assert_eq!(owned.into_text(), text, "{row}");
}

/// Texts by which each date is written alike are refused, unless the type takes them.
#[test]
fn no_component() {
    let alike = "has no component, so each date would be written alike";
    let other = "it is a format of another language than";
    let rows = [
        (THREE, "", format!("the format `` {alike}")),
        (TWO, "due", format!("the format `due` {alike}")),
        (THREE, "%Y-%m-%d", format!("the format `%Y-%m-%d` {alike}; {other} version 3")),
        (STRFTIME, "[year]", format!("the format `[year]` {alike}; {other} strftime")),
    ];
    for (language, text, sentence) in rows {
        let error = read::<OwnedFormat>(language, text).expect_err(text);
        assert_eq!(error.to_string(), sentence);
        let any: AnyFormat = read(language, text).expect(text);
        assert_eq!(write(language, &any).expect(text), text);
    }
    let own: OwnedFormat = read(STRFTIME, "%d [year]").expect("a component beside another text");
    assert_eq!(own.text(), "%d [year]");
}

#[test]
fn refused() {
    for (languages, text, index, sentence) in REFUSED {
        for language in *languages {
            expect_refused(*language, text, *index, sentence);
        }
    }
}

fn expect_refused(language: Language, text: &str, index: usize, sentence: &str) {
    let row = format!("{text:?} in {language:?}");
    let owned = read::<OwnedFormat>(language, text).expect_err(&row);
    assert_eq!(owned.to_string(), sentence, "{row}");
    let borrowed = read::<FormatDescription>(language, text).expect_err(&row);
    assert_eq!(borrowed.to_string(), sentence, "{row}");
    let error = OwnedFormat::new(language, text).expect_err(&row);
    assert_eq!(error.index(), Some(index), "{row}");
}

/// It would be read as one of the other, and mean something else, or be refused.
#[test]
fn no_format_is_written_as_one_of_another_language() {
    let rows = [
        (ONE, TWO, "a format of version 1 can't be written as one of version 2"),
        (TWO, THREE, "a format of version 2 can't be written as one of version 3"),
        (THREE, STRFTIME, "a format of version 3 can't be written as one of strftime"),
        (STRFTIME, ONE, "a format of strftime can't be written as one of version 1"),
    ];
    for (own, other, sentence) in rows {
        let owned = OwnedFormat::new(own, "x").expect("a literal");
        assert_eq!(write(other, &owned).expect_err(sentence).to_string(), sentence);
        let borrowed = owned.description();
        assert_eq!(write(other, borrowed).expect_err(sentence).to_string(), sentence);
        assert_eq!(write(other, &Some(owned)).expect_err(sentence).to_string(), sentence);
    }
}
