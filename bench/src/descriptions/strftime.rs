//! Short texts of strftime.

use crate::kind::Kind;
use crate::text::Table;

pub const STRFTIME: &[Kind] = &[Kind::Strftime];

pub static TABLE: Table = Table {
    kinds: STRFTIME,
    rows: &[
        // ISO 8601.
        ("iso date", "%Y-%m-%d"),
        ("iso date, composite", "%F"),
        ("iso date, basic", "%Y%m%d"),
        ("iso ordinal date", "%Y-%j"),
        ("iso week date", "%G-W%V-%u"),
        ("iso time", "%H:%M:%S"),
        ("iso time, composite", "%T"),
        ("iso date and time", "%Y-%m-%dT%H:%M:%SZ"),
        ("iso with offset", "%Y-%m-%dT%H:%M:%S%z"),
        ("iso with offset, composite", "%FT%T%z"),
        // Requests for comments, and HTTP.
        ("rfc 2822", "%a, %d %b %Y %H:%M:%S %z"),
        ("rfc 850", "%A, %d-%b-%y %H:%M:%S GMT"),
        ("http date", "%a, %d %b %Y %H:%M:%S GMT"),
        ("cookie date", "%a, %d-%b-%Y %T GMT"),
        ("asctime", "%a %b %e %H:%M:%S %Y"),
        // Logs.
        ("common log format", "[%d/%b/%Y:%H:%M:%S %z]"),
        ("nginx error log", "%Y/%m/%d %H:%M:%S"),
        ("syslog", "%b %e %H:%M:%S"),
        ("log", "%Y-%m-%d %H:%M:%S INFO"),
        ("date command", "%a %b %e %H:%M:%S UTC %Y"),
        ("unix timestamp", "%s"),
        // Names of files.
        ("file name", "backup_%Y-%m-%d_%H-%M-%S.tar.gz"),
        ("picture name", "IMG_%Y%m%d_%H%M%S.jpg"),
        ("folders", "%Y/%m/%d/"),
        ("rotated log", "/var/log/app/app.log.%Y-%m-%d-%H.gz"),
        // Dates for people.
        ("us date", "%m/%d/%Y"),
        ("us date, composite", "%D"),
        ("us date and time", "%-m/%-d/%Y %-I:%M %p"),
        ("german date", "%d.%m.%Y"),
        ("long date", "%A, %-d %B %Y"),
        ("letter", "%B %-d, %Y"),
        ("clock of 12 hours", "%I:%M %P"),
        ("clock, composite", "%r"),
        ("hour and minute", "%R"),
        ("date and time", "%c"),
        ("week of the year", "week %U of %Y"),
        ("century", "%C%y"),
        ("weekday numbers", "%w %u"),
        ("one component", "%d"),
        ("no component", "noon of the first day"),
        ("sentence", "The meeting is on %A, the %-d of %B %Y, at %H:%M sharp."),
        // All that a directive may be.
        ("flags", "%_d %_H %-M %0S %-j"),
        ("percents", "100%% of %A, 50%% of %B"),
        ("tabs and lines", "%d%t%m%t%Y%n"),
    ],
};
