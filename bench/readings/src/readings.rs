//! The readings: a description of version 1, and a text.

/// What is asked for.
#[derive(Clone, Copy)]
pub enum Kind {
    Date,
    Time,
    Offset,
    Moment,
}

pub const READINGS: &[(Kind, &[(&str, &str)])] =
    &[(Kind::Date, DATES), (Kind::Time, TIMES), (Kind::Offset, OFFSETS), (Kind::Moment, MOMENTS)];

const ISO: &str = "[year]-[month]-[day]";
const SUNDAYS: &str = "[year] [week_number repr:sunday] [weekday]";
const MONDAYS: &str = "[year] [week_number repr:monday] [weekday]";
const ISO_WEEK: &str = "[year base:iso_week]-W[week_number]-[weekday repr:monday]";
const OFFSET: &str = "[offset_hour]:[offset_minute]";

const DATES: &[(&str, &str)] = &[
    (ISO, "2026-11-23"),
    (ISO, "2024-02-29"),
    (ISO, "2026-02-29"),
    (ISO, "2026-13-01"),
    (ISO, "2026-11-00"),
    (ISO, "2026-11-23 "),
    (ISO, "2026/11-23"),
    (ISO, "+2026-11-23"),
    (ISO, "-0044-03-15"),
    (ISO, "-0000-01-01"),
    (ISO, "12345-06-07"),
    (ISO, "+12345-06-07"),
    (ISO, "+999999-12-31"),
    ("[year sign:mandatory]-[month]-[day]", "2026-11-23"),
    ("[year padding:space]-[month]-[day]", "  26-11-23"),
    ("[year padding:space]-[month]-[day]", "+  26-11-23"),
    ("[year padding:space]-[month]-[day]", " +26-11-23"),
    ("[year padding:none]-[month padding:none]-[day padding:none]", "26-1-2"),
    ("[day padding:space]/[month padding:space]/[year]", " 3/ 1/2026"),
    ("[day padding:space]/[month]/[year]", "03/01/2026"),
    ("[day padding:none] [month repr:short] [year]", "3 Nov 2026"),
    ("[month repr:long] [day], [year]", "November 23, 2026"),
    ("[month repr:long] [day], [year]", "november 23, 2026"),
    ("[month repr:long case_sensitive:false] [day], [year]", "november 23, 2026"),
    ("[weekday], [day] [month repr:short] [year]", "Monday, 23 Nov 2026"),
    ("[weekday repr:short] [year]-[month]-[day]", "Tue 2026-11-23"),
    ("[weekday repr:sunday] [year]-[month]-[day]", "2 2026-11-23"),
    ("[year]-[ordinal]", "2026-327"),
    ("[year]-[ordinal]", "2026-366"),
    ("[year]-[month]-[day] [ordinal]", "2026-11-23 326"),
    (ISO_WEEK, "2020-W53-7"),
    (ISO_WEEK, "2025-W53-1"),
    (SUNDAYS, "2026 47 Monday"),
    (SUNDAYS, "2026 00 Thursday"),
    (MONDAYS, "2026 47 Monday"),
    (MONDAYS, "2026 00 Monday"),
    ("[year repr:last_two]-[month]-[day]", "26-11-23"),
    ("[year base:iso_week]-[month]-[day]", "2026-11-23"),
    ("[year]-[month]", "2026-11"),
    ("[day] [day]-[month]-[year]", "22 23-11-2026"),
];

const TIMES: &[(&str, &str)] = &[
    ("[hour]:[minute]:[second].[subsecond]", "05:36:07.012345678"),
    ("[hour]:[minute]:[second].[subsecond]", "05:36:07.5"),
    ("[hour]:[minute]:[second].[subsecond]", "05:36:07.0123456789"),
    ("[hour]:[minute]:[second].[subsecond digits:3]", "05:36:07.012"),
    ("[hour]:[minute]:[second].[subsecond digits:3]", "05:36:07.01"),
    ("[hour]:[minute].[subsecond]", "12:30.5"),
    ("[hour]:[minute]", "23:59"),
    ("[hour]:[minute]", "24:00"),
    ("[hour]:[minute]:[second]", "12:30:60"),
    ("[hour]", "12"),
    ("[hour padding:none]:[minute]", "5:36"),
    ("[hour padding:space]:[minute]", " 5:36"),
    ("[hour repr:12]:[minute] [period]", "12:30 AM"),
    ("[hour repr:12]:[minute] [period]", "12:30 PM"),
    ("[hour repr:12]:[minute] [period]", "07:05 pm"),
    ("[hour repr:12]:[minute] [period case:lower]", "07:05 pm"),
    ("[hour repr:12]:[minute] [period case_sensitive:false]", "07:05 pm"),
    ("[hour repr:12] [period]", "03 PM"),
    ("[hour repr:12] [period]", "13 PM"),
    ("[hour repr:12] [period]", "00 AM"),
    ("[hour]:[minute] [period]", "15:10 AM"),
    ("[hour]:[minute][optional [:[second]]]", "12:30:07"),
    ("[hour]:[minute][optional [:[second]]]", "12:30"),
    ("[hour]:[minute][optional [:[second]]]", "12:30:7"),
    ("[first [[hour]:[minute]] [[hour repr:12] [period]]]", "12:30"),
    ("[first [[hour]:[minute]] [[hour repr:12] [period]]]", "03 PM"),
];

const OFFSETS: &[(&str, &str)] = &[
    (OFFSET, "+05:45"),
    (OFFSET, "-05:45"),
    (OFFSET, "05:45"),
    (OFFSET, "-00:30"),
    (OFFSET, "+01:60"),
    ("[offset_hour sign:mandatory]:[offset_minute]", "00:30"),
    ("[offset_hour]:[offset_minute]:[offset_second]", "-22:13:20"),
    ("[offset_hour]:[offset_minute]:[offset_second]", "25:59:59"),
    ("[offset_hour]", "-01"),
    ("[offset_minute]", "30"),
];

const MOMENTS: &[(&str, &str)] = &[
    (
        "[year]-[month]-[day]T[hour]:[minute]:[second].[subsecond][offset_hour sign:mandatory]:[offset_minute]",
        "2026-11-23T05:36:07.012345678+01:00",
    ),
    (
        "[weekday repr:short], [day] [month repr:short] [year] [hour]:[minute]:[second] \
         [offset_hour sign:mandatory][offset_minute]",
        "Mon, 23 Nov 2026 05:36:07 +0100",
    ),
];
