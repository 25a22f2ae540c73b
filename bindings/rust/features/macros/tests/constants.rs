//! What the macro makes is what is read of the same text when a program runs.

use timefd::{FormatDescription, Language, Moment, Version, format_description};

/// Each literal in a language, made by the macro, and read.
macro_rules! rows {
    ($($language:expr, [$($given:tt)*], $text:literal;)*) => {
        [$(($language.into(), format_description!($($given)* $text), $text)),*]
    };
}

type Row = (Language, &'static FormatDescription<'static>, &'static str);

#[allow(deprecated)] // Some are suspect.
fn rows() -> Vec<Row> {
    let rows: [Row; 14] = rows! {
        Version::Three, [], "";
        Version::Three, [], "[year]-[month]-[day]";
        Version::Three, [], "[year padding:none]\\[[month repr:short]\\]";
        Version::Three, [], r"[hour]\\[minute]";
        Version::Three, [], r#"the "[day]" of [month repr:long], le jour où [weekday]"#;
        Version::Three, [version = 3,], "[hour]:[minute][optional [:[second][optional format:false [.[subsecond]]]]]";
        Version::Three, [], "[first [[day]] [[ordinal]]] [first [a] [b]]";
        Version::Three, [], "\u{e9}t\u{E9} [day]\tand\n[hour]";
        Version::Three, [], "[day] \
            of [month]";
        Version::One, [version = 1,], "[[[YEAR]-[Month]";
        Version::Two, [version = 2,], r"\[[year]\]";
        Language::Strftime, [strftime,], "%F %T %%";
        Language::Strftime, [strftime,], "%c";
        Language::Strftime, [strftime,], "%d. %B %Y";
    };
    rows.to_vec()
}

#[test]
fn the_macro_makes_what_is_parsed() {
    let moment: Moment = "2026-11-23T05:06:07.008+01:00".parse().unwrap();
    for (language, made, text) in rows() {
        let read = FormatDescription::parse(language, text).unwrap();
        assert_eq!(*made, read, "{text}");
        assert_eq!((made.text(), made.language()), (text, language));
        assert_eq!(made.max_bytes_needed(), read.max_bytes_needed(), "{text}");
        assert_eq!(made.format(&moment), read.format(&moment), "{text}");
        assert_eq!(made.show(moment).to_string(), read.format(&moment).unwrap());
        assert_eq!(made.parts().collect::<Vec<_>>(), read.parts().collect::<Vec<_>>());
        assert_eq!(format!("{made:?}"), format!("{read:?}"));
        let written = made.format(&moment).unwrap();
        assert_eq!(made.read(&written), read.read(&written), "{text}");
    }
}

/// They are constants.
const DATE: &FormatDescription<'static> = format_description!("[year]-[month]-[day]");
static TIME: &FormatDescription<'static> = format_description!("[hour]:[minute]",);

#[test]
fn constants_are_used() {
    let moment: Moment = "2026-11-23T05:06:07+01:00".parse().unwrap();
    assert_eq!(DATE.format(&moment).unwrap(), "2026-11-23");
    assert_eq!(TIME.format(&moment).unwrap(), "05:06");
    assert_eq!(DATE.clone().into_owned(), *DATE);
}
