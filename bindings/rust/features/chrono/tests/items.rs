//! Items of `chrono`: what it writes by them beside what is written here.

use chrono::format::{Item, StrftimeItems};
use chrono::{DateTime, FixedOffset};
use timefd::chrono::{to_items, to_text};
use timefd::{FormatDescription, Moment, Version};

const MOMENTS: &[&str] = &[
    "2026-11-23T05:36:07.012345678+01:00",
    "2021-01-03T00:00:00-03:30",
    "0044-03-15T23:59:59.999999999-00:30",
    "9999-12-31T12:00:01.5+14:00",
];

/// Texts of version 3 of which `chrono` has all components.
const TEXTS: &[&str] = &[
    "",
    "[year]-[month]-[day]T[hour]:[minute]:[second].[subsecond digits:3][offset_hour sign:mandatory]:[offset_minute]",
    r"\[[weekday]\], [day padding:none] [month repr:long] [year]",
    "[weekday repr:short] [month repr:short] [day padding:space] [period] [period case:lower]",
    "[weekday repr:sunday one_indexed:false][weekday repr:monday][ordinal]",
    "[week_number] [week_number repr:sunday padding:none] [week_number repr:monday padding:space]",
    "[year base:iso_week] [year repr:last_two] [year repr:last_two base:iso_week padding:none]",
    "[year repr:century range:standard] [year repr:century range:standard base:iso_week padding:none]",
    "[year padding:none] [year padding:space] [year range:extended]",
    "[hour repr:12] [hour padding:none] [minute padding:space] [second padding:none]",
    "at.[subsecond digits:6] [subsecond digits:9].[subsecond digits:9]",
    "[offset_hour sign:mandatory][offset_minute] [unix_timestamp]",
    "[optional format:false [x]][first [[minute]] [x]]",
];

fn theirs(items: &[Item<'_>], moment: &Moment) -> String {
    let instant = DateTime::<FixedOffset>::try_from(*moment).expect("chrono has it");
    instant.format_with_items(items.iter()).to_string()
}

#[test]
fn chrono_writes_the_same() {
    for text in TEXTS {
        let description = FormatDescription::parse(Version::Three, text).expect(text);
        let items = to_items(&description).expect(text);
        for moment in MOMENTS {
            let moment: Moment = moment.parse().expect(moment);
            let expected = description.format(&moment).expect(text);
            assert_eq!(theirs(&items, &moment), expected, "{text} of {moment}");
        }
        let back = FormatDescription::parse(Version::Three, &to_text(&items).expect(text))
            .expect(text)
            .into_owned();
        assert_eq!(to_items(&back).expect(text), items, "{text}");
    }
}

/// Texts of strftime by `chrono`, of which each item has a description.
const STRFTIME: &[&str] = &[
    "%Y-%m-%dT%H:%M:%S%.3f%:z",
    "%A %a %B %b %d %e %j %y %C %G %g %U %W %V %u %w %p %P %I %l %k %s %n%t%% %z %-d %_m %.6f%.9f",
    "[a]\\%D %F %T %R %r %v",
];

#[test]
fn the_text_writes_the_same() {
    for text in STRFTIME {
        let items: Vec<Item<'_>> = StrftimeItems::new(text).collect();
        let modern = to_text(&items).expect(text);
        for moment in MOMENTS {
            let moment: Moment = moment.parse().expect(moment);
            let written = timefd::format(Version::Three, &modern, &moment).expect(&modern);
            assert_eq!(written, theirs(&items, &moment), "{text} is {modern}");
        }
    }
}

#[test]
fn what_is_lacking() {
    for (text, part) in [
        ("[subsecond]", "subsecond"),
        (".[subsecond digits:1]", "subsecond"),
        ("[offset_hour][offset_minute]", "offset_hour"),
        ("[offset_second]", "offset_second"),
        ("[year sign:mandatory]", "year"),
        ("[weekday repr:sunday]", "weekday"),
        ("[ignore count:1]", "ignore"),
        ("[end]", "end"),
        ("[unix_timestamp precision:millisecond]", "unix_timestamp"),
    ] {
        let description = FormatDescription::parse(Version::Three, text).expect(text);
        let error = to_items(&description).expect_err(text);
        assert_eq!(error.part(), part, "{text}");
    }
    for text in ["%.f", "%Z", "%+", "%c %::z", "%", "%3f"] {
        let items: Vec<Item<'_>> = StrftimeItems::new(text).collect();
        assert!(to_text(&items).is_err(), "{text}: {items:?}");
    }
}
