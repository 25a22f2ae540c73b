//! Descriptions of version 1.

/// Components, each with the modifiers that change what is written. `time` 0.3.9 doesn't know the
/// last four.
const COMPONENTS: &[(&str, &[&str])] = &[
    ("day", PADDINGS),
    ("month", PADDINGS),
    ("month", &["repr:short", "repr:long case_sensitive:false"]),
    ("ordinal", PADDINGS),
    ("weekday", &["", "repr:short", "repr:sunday", "repr:monday"]),
    ("weekday", &["repr:sunday one_indexed:false", "repr:monday one_indexed:false"]),
    ("week_number", PADDINGS),
    ("week_number repr:sunday", PADDINGS),
    ("week_number repr:monday", PADDINGS),
    ("year", PADDINGS),
    ("year sign:mandatory", PADDINGS),
    ("year base:iso_week", PADDINGS),
    ("year base:iso_week sign:mandatory", PADDINGS),
    ("year repr:last_two", PADDINGS),
    ("year repr:last_two base:iso_week", PADDINGS),
    ("hour", PADDINGS),
    ("hour repr:12", PADDINGS),
    ("minute", PADDINGS),
    ("second", PADDINGS),
    ("period", &["", "case:lower", "case:upper case_sensitive:false"]),
    ("subsecond", &["", "digits:1", "digits:2", "digits:3", "digits:4", "digits:5", "digits:6"]),
    ("subsecond", &["digits:7", "digits:8", "digits:9", "digits:1+"]),
    ("offset_hour", PADDINGS),
    ("offset_hour sign:mandatory", PADDINGS),
    ("offset_minute", PADDINGS),
    ("offset_second", PADDINGS),
    ("year repr:century", &[""]),
    ("unix_timestamp", &[""]),
    ("ignore", &["count:1"]),
    ("end", &[""]),
];

const PADDINGS: &[&str] = &["", "padding:zero", "padding:space", "padding:none"];

/// Descriptions of several parts.
const WHOLE: &[&str] = &[
    "",
    "no component",
    "[[[day]é[month]]",
    "[year]-[month]-[day]T[hour]:[minute]:[second].[subsecond]\
     [offset_hour sign:mandatory]:[offset_minute]",
    "[weekday repr:short], [day] [month repr:short] [year] [hour]:[minute]:[second] \
     [offset_hour sign:mandatory][offset_minute]",
    "[year base:iso_week]-W[week_number]-[weekday repr:monday]",
];

/// All descriptions.
pub fn all() -> Vec<String> {
    let components = COMPONENTS.iter().flat_map(|(component, modifiers)| {
        modifiers.iter().map(move |modifiers| format!("[{component} {modifiers}]"))
    });
    components.chain(WHOLE.iter().map(|text| text.to_string())).collect()
}
