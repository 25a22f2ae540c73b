//! Short descriptions of versions 1, 2 and 3.

use crate::kind::Kind;
use crate::text::Table;

pub const EVERY_VERSION: &[Kind] = &[Kind::One, Kind::Two, Kind::Three];
pub const VERSION_1: &[Kind] = &[Kind::One];
pub const VERSION_3: &[Kind] = &[Kind::Three];
pub const VERSIONS_2_AND_3: &[Kind] = &[Kind::Two, Kind::Three];
const VERSIONS_1_AND_2: &[Kind] = &[Kind::One, Kind::Two];

pub static TABLES: &[Table] = &[
    Table {
        kinds: EVERY_VERSION,
        rows: &[
            // ISO 8601.
            ("iso date", "[year]-[month]-[day]"),
            ("iso date, basic", "[year][month][day]"),
            ("iso month", "[year]-[month]"),
            ("iso ordinal date", "[year]-[ordinal]"),
            ("iso week date", "[year base:iso_week]-W[week_number]-[weekday repr:monday]"),
            ("iso time", "[hour]:[minute]:[second]"),
            ("iso time, basic", "T[hour][minute][second]"),
            ("iso time of milliseconds", "[hour]:[minute]:[second].[subsecond digits:3]"),
            ("iso date and time", "[year]-[month]-[day]T[hour]:[minute]:[second]Z"),
            (
                "iso with offset",
                "[year]-[month]-[day]T[hour]:[minute]:[second][offset_hour sign:mandatory]:[offset_minute]",
            ),
            (
                "iso with offset, basic",
                "[year][month][day]T[hour][minute][second][offset_hour sign:mandatory][offset_minute]",
            ),
            ("iso year of six digits", "[year range:extended sign:mandatory]-[month]-[day]"),
            // Requests for comments, and HTTP.
            (
                "rfc 3339",
                "[year]-[month]-[day]T[hour]:[minute]:[second].[subsecond][offset_hour sign:mandatory]:[offset_minute]",
            ),
            ("rfc 3339, utc", "[year]-[month]-[day]T[hour]:[minute]:[second].[subsecond digits:9]Z"),
            (
                "rfc 2822",
                "[weekday repr:short], [day] [month repr:short] [year] [hour]:[minute]:[second] [offset_hour sign:mandatory][offset_minute]",
            ),
            ("rfc 850", "[weekday], [day]-[month repr:short]-[year repr:last_two] [hour]:[minute]:[second] GMT"),
            ("http date", "[weekday repr:short], [day] [month repr:short] [year] [hour]:[minute]:[second] GMT"),
            ("cookie date", "[weekday repr:short], [day]-[month repr:short]-[year] [hour]:[minute]:[second] GMT"),
            ("asctime", "[weekday repr:short] [month repr:short] [day padding:space] [hour]:[minute]:[second] [year]"),
            // Logs.
            (
                "common log format, bare",
                "[day]/[month repr:short]/[year]:[hour]:[minute]:[second] [offset_hour sign:mandatory][offset_minute]",
            ),
            ("nginx error log", "[year]/[month]/[day] [hour]:[minute]:[second]"),
            ("syslog", "[month repr:short] [day padding:space] [hour]:[minute]:[second]"),
            ("syslog, rfc 5424", "[year]-[month]-[day]T[hour]:[minute]:[second].[subsecond digits:6]Z"),
            ("log of milliseconds", "[year]-[month]-[day] [hour]:[minute]:[second],[subsecond digits:3] INFO"),
            ("journal", "[weekday repr:short] [year]-[month]-[day] [hour]:[minute]:[second] UTC"),
            (
                "date command",
                "[weekday repr:short] [month repr:short] [day padding:space] [hour]:[minute]:[second] UTC [year]",
            ),
            ("kernel style", "[month][day] [hour]:[minute]:[second].[subsecond digits:6] main.rs:42"),
            // Names of files.
            ("file name", "backup_[year]-[month]-[day]_[hour]-[minute]-[second].tar.gz"),
            ("picture name", "IMG_[year][month][day]_[hour][minute][second].jpg"),
            ("folders", "[year]/[month]/[day]/"),
            ("rotated log", "/var/log/app/app.log.[year]-[month]-[day]-[hour].gz"),
            // Data bases.
            ("sql timestamp", "[year]-[month]-[day] [hour]:[minute]:[second].[subsecond digits:6]"),
            (
                "sql timestamp, zone",
                "[year]-[month]-[day] [hour]:[minute]:[second] [offset_hour sign:mandatory]:[offset_minute]:[offset_second]",
            ),
            ("unix timestamp", "[unix_timestamp]"),
            ("unix milliseconds", "[unix_timestamp precision:millisecond]"),
            ("unix nanoseconds", "[unix_timestamp precision:nanosecond sign:mandatory]"),
            // Dates for people.
            ("us date", "[month]/[day]/[year]"),
            (
                "us date and time",
                "[month padding:none]/[day padding:none]/[year] [hour repr:12 padding:none]:[minute] [period]",
            ),
            ("german date", "[day].[month].[year]"),
            ("long date", "[weekday], [day padding:none] [month repr:long] [year]"),
            ("letter", "[month repr:long] [day padding:none], [year]"),
            ("clock of 12 hours", "[hour repr:12]:[minute] [period case:lower]"),
            ("week of the year", "week [week_number repr:sunday] of [year]"),
            ("century", "[year repr:century][year repr:last_two]"),
            ("weekday number", "[weekday repr:sunday one_indexed:false]"),
            ("one component", "[day]"),
            ("no component", "noon of the first day"),
            (
                "sentence",
                "The meeting is on [weekday], the [day padding:none] of [month repr:long] [year], at [hour]:[minute] sharp.",
            ),
            // All that a bracket may hold.
            ("white bytes", "[ year ]-[ month   padding:zero ]-[ day ]"),
            ("all modifiers of a year", "[year padding:space repr:full range:standard base:calendar sign:automatic]"),
            (
                "modifiers of all",
                "[weekday repr:long case_sensitive:false] [day padding:space] [month repr:long case_sensitive:false] [hour repr:12 padding:space]",
            ),
            ("ignored bytes", "[ignore count:4][hour]:[minute]"),
            ("end of input", "[year]-[month]-[day][end]"),
            ("what is left", "[hour]:[minute][end trailing_input:discard]"),
        ],
    },
    Table {
        kinds: VERSIONS_1_AND_2,
        rows: &[
            ("capital letters", "[YEAR]-[Month]-[DAY] [HOUR Padding:NONE]"),
            ("repeated modifiers", "[hour repr:12 repr:24]:[minute padding:none padding:zero]"),
            ("modifiers without use", "[month repr:short padding:none] [weekday repr:short one_indexed:true]"),
        ],
    },
    Table {
        kinds: VERSION_1,
        rows: &[
            (
                "common log format",
                "[[[day]/[month repr:short]/[year]:[hour]:[minute]:[second] [offset_hour sign:mandatory][offset_minute]]",
            ),
            ("doubled brackets", "[[[hour]:[minute]] on [[[day]]"),
        ],
    },
    Table {
        kinds: VERSIONS_2_AND_3,
        rows: &[
            (
                "common log format",
                r"\[[day]/[month repr:short]/[year]:[hour]:[minute]:[second] [offset_hour sign:mandatory][offset_minute]\]",
            ),
            (
                "apache error log",
                r"\[[weekday repr:short] [month repr:short] [day] [hour]:[minute]:[second].[subsecond digits:6] [year]\]",
            ),
            ("escapes", r"\[[hour]:[minute]\] C:\\logs\\[year]\\[month]"),
        ],
    },
    Table {
        kinds: VERSION_3,
        rows: &[
            ("optional seconds", "[hour]:[minute][optional [:[second]]]"),
            ("optional fraction", "[hour]:[minute]:[second][optional [.[subsecond]]]"),
            (
                "optional weekday, not shown",
                "[optional format:false [[weekday repr:short], ]][day] [month repr:short] [year]",
            ),
            (
                "optionals in one another",
                "[year][optional [-[month][optional [-[day][optional [T[hour]:[minute][optional [:[second][optional [.[subsecond]]]]]]]]]]]",
            ),
            ("alternative dates", "[first [[year]-[month]-[day]] [[day].[month].[year]] [[month]/[day]/[year]]]"),
            ("alternative offsets", "[hour]:[minute][first [Z] [[offset_hour sign:mandatory]:[offset_minute]]]"),
        ],
    },
];
