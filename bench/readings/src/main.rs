//! Prints what `time` reads of texts: for each its description, the text and the answer, as literals on a line.

mod nested;
mod readings;

use std::fmt::Write;
use std::panic;

use readings::{Kind, READINGS};
use time::error::Parse;
use time::format_description::FormatItem;
use time::{Date, OffsetDateTime, Time, UtcOffset};

fn main() {
    panic::set_hook(Box::new(|_| ()));
    for (kind, readings) in READINGS {
        for (by, text) in *readings {
            println!("{by:?}\t{text:?}\t{:?}", answer(*kind, by, text));
        }
    }
}

fn answer(kind: Kind, by: &'static str, text: &str) -> String {
    let items = nested::items(by);
    match panic::catch_unwind(|| read(kind, &items, text)) {
        Ok(Ok(shown)) => shown,
        Ok(Err(_)) => "refused".to_owned(),
        Err(_) => "panics".to_owned(),
    }
}

fn read(kind: Kind, items: &[FormatItem<'_>], text: &str) -> Result<String, Parse> {
    Ok(match kind {
        Kind::Date => date(Date::parse(text, items)?),
        Kind::Time => time(Time::parse(text, items)?),
        Kind::Offset => offset(UtcOffset::parse(text, items)?),
        Kind::Moment => {
            let read = OffsetDateTime::parse(text, items)?;
            format!("{}T{}{}", date(read.date()), time(read.time()), offset(read.offset()))
        }
    })
}

fn date(date: Date) -> String {
    let (year, month, day) = date.to_calendar_date();
    let sign = if year < 0 {
        "-"
    } else if year > 9999 {
        "+"
    } else {
        ""
    };
    format!("{sign}{:04}-{:02}-{day:02}", year.abs(), u8::from(month))
}

fn time(time: Time) -> String {
    let (hour, minute, second, nanosecond) = time.as_hms_nano();
    let mut shown = format!("{hour:02}:{minute:02}:{second:02}");
    if nanosecond > 0 {
        write!(shown, ".{nanosecond:09}").expect("a `String` takes all");
    }
    shown
}

fn offset(offset: UtcOffset) -> String {
    let (hours, minutes, seconds) = offset.as_hms();
    let sign = if offset.is_negative() { '-' } else { '+' };
    let mut shown = format!("{sign}{:02}:{:02}", hours.abs(), minutes.abs());
    if seconds != 0 {
        write!(shown, ":{:02}", seconds.abs()).expect("a `String` takes all");
    }
    shown
}
