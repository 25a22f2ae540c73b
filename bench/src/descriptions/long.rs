//! Long descriptions of all kinds, and descriptions that nest.

use super::brackets::{EVERY_VERSION, VERSION_1, VERSION_3, VERSIONS_2_AND_3};
use super::strftime::STRFTIME;
use crate::kind::Kind;
use crate::text::{Family, Make, ONCE};

/// Sizes from the least long text on.
const ALL_SIZES: &[usize] = &[200, 1_000, 10_000, 100_000];
const SIZES: &[usize] = &[1_000, 10_000, 100_000];
const PROSE: &str = "A literal is a part of a description that stands for itself, whatever the date or the time is. ";
const ACCENTS: &str = "Ein Text mit \u{e4}, \u{f6}, \u{fc} und \u{df}: \u{a7} 1, vier\u{a0}Jahre. ";
const REPORT: &str = "This report was written on [weekday], the [day padding:none] of [month repr:long] in the year [year], \
                      at [hour]:[minute] o'clock, by nobody in particular. ";
const STRFTIME_REPORT: &str =
    "This report was written on %A, the %-d of %B in the year %Y, at %H:%M o'clock, by nobody in particular. ";

const fn repeated(kinds: &'static [Kind], name: &'static str, part: &'static str, sizes: &'static [usize]) -> Family {
    let make = Make::Repeated(part);
    Family { kinds, name, make, sizes }
}

const fn nested(name: &'static str, depth: usize, sizes: &'static [usize]) -> Family {
    let make = Make::Nested(depth);
    let kinds = VERSION_3;
    Family { kinds, name, make, sizes }
}

pub static FAMILIES: &[Family] = &[
    repeated(EVERY_VERSION, "literal", PROSE, ALL_SIZES),
    repeated(EVERY_VERSION, "literal of accents", ACCENTS, SIZES),
    repeated(EVERY_VERSION, "components", "[year]-[month]-[day] [hour]:[minute]:[second] ", ALL_SIZES),
    repeated(EVERY_VERSION, "components alone", "[year][month][day][hour][minute][second]", SIZES),
    repeated(EVERY_VERSION, "modifiers", "[weekday repr:short], [day padding:none] [month repr:short] ", ALL_SIZES),
    repeated(EVERY_VERSION, "report", REPORT, ALL_SIZES),
    repeated(VERSION_1, "doubled brackets", "[[[day]] ", SIZES),
    repeated(VERSIONS_2_AND_3, "escapes", r"\[[day]\] ", SIZES),
    nested("optional 1 deep", 1, &[ONCE]),
    nested("optional 2 deep", 2, &[ONCE]),
    nested("optional 4 deep", 4, &[ONCE]),
    nested("optional 8 deep", 8, &[ONCE]),
    nested("optional 16 deep", 16, &[ONCE]),
    nested("optional 32 deep", 32, &[ONCE]),
    nested("optional 64 deep", 64, &[ONCE]),
    nested("optional 127 deep", 127, &[ONCE]),
    nested("optionals 1 deep", 1, SIZES),
    nested("optionals 16 deep", 16, SIZES),
    nested("optionals 64 deep", 64, SIZES),
    nested("optionals 127 deep", 127, SIZES),
    repeated(VERSION_3, "alternatives", "[first [[day].[month]] [[month]/[day]]] ", SIZES),
    repeated(STRFTIME, "literal", PROSE, ALL_SIZES),
    repeated(STRFTIME, "literal of accents", ACCENTS, SIZES),
    repeated(STRFTIME, "components", "%Y-%m-%d %H:%M:%S ", ALL_SIZES),
    repeated(STRFTIME, "components alone", "%Y%m%d%H%M%S", SIZES),
    repeated(STRFTIME, "flags", "%_d %-m %0H ", SIZES),
    repeated(STRFTIME, "composites", "%F %T %z ", ALL_SIZES),
    repeated(STRFTIME, "report", STRFTIME_REPORT, ALL_SIZES),
    repeated(STRFTIME, "percents", "100%% ", SIZES),
];
