//! Dates, times and moments as texts of ISO 8601 and RFC 3339. The library writes and reads them.

use alloc::string::String;
use core::fmt;
use core::str::FromStr;

use crate::date::Date;
use crate::format::{FormatError, format};
use crate::moment::Moment;
use crate::read::{ReadError, read};
use crate::time_of_day::Time;
use crate::version::Version;

/// The parts of a description of version 3.
const DATE: &str = "[year range:extended]-[month]-[day]";
const TO_MINUTES: &str = "[hour]:[minute]";
const SECOND: &str = ":[second]";
const FRACTION: &str = ".[subsecond]";
const OFFSET: &str = "[offset_hour sign:mandatory]:[offset_minute]";
const OFFSET_SECOND: &str = ":[offset_second]";

impl fmt::Display for Date {
    fn fmt(&self, f: &mut fmt::Formatter<'_>) -> fmt::Result {
        Moment::from(*self).fmt(f)
    }
}

impl fmt::Display for Time {
    fn fmt(&self, f: &mut fmt::Formatter<'_>) -> fmt::Result {
        Moment::from(*self).fmt(f)
    }
}

/// Numbers that are out of their range are shown as `Debug` shows them.
impl fmt::Display for Moment {
    fn fmt(&self, f: &mut fmt::Formatter<'_>) -> fmt::Result {
        match format(Version::Three, &description_of(self), self) {
            Ok(text) => f.pad(&text),
            Err(FormatError::OutOfRange(_)) => fmt::Debug::fmt(self, f),
            Err(_) => Err(fmt::Error),
        }
    }
}

/// What writes all of a moment.
fn description_of(moment: &Moment) -> String {
    let mut description = String::new();
    let mut add = |part: &str, is_there: bool| {
        if is_there {
            description.push_str(part);
        }
    };
    let (has_date, has_time) = (moment.date.is_some(), moment.time.is_some());
    add(DATE, has_date);
    add("T", has_date && has_time);
    add(TO_MINUTES, has_time);
    add(SECOND, has_time);
    add(FRACTION, moment.time.is_some_and(|time| time.nanosecond > 0));
    add(OFFSET, moment.offset_seconds.is_some());
    add(OFFSET_SECOND, moment.offset_seconds.is_some_and(|seconds| seconds % 60 != 0));
    description
}

impl FromStr for Date {
    type Err = ReadError;

    /// Reads `2026-11-23`. A year beyond 9999 has a sign.
    fn from_str(text: &str) -> Result<Self, ReadError> {
        let moment = read(Version::Three, DATE, text)?;
        Ok(moment.date.expect("a date was read"))
    }
}

impl FromStr for Time {
    type Err = ReadError;

    /// Reads `05:06`, `05:06:07` and `05:06:07.5`, with up to nine digits of a fraction.
    fn from_str(text: &str) -> Result<Self, ReadError> {
        let mut description = String::new();
        push_time(&mut description, text);
        let moment = read(Version::Three, &description, text)?;
        Ok(moment.time.expect("a time was read"))
    }
}

impl FromStr for Moment {
    type Err = ReadError;

    /// Reads a date, a time of day, or both with a `T`, a `t` or a space between them; and after
    /// them an offset: `Z`, `z`, or `+01:00`.
    fn from_str(text: &str) -> Result<Self, ReadError> {
        let (local, zone) = split_zone(text);
        let mut description = String::new();
        match local.find(['T', 't', ' ']) {
            Some(place) => {
                description.push_str(DATE);
                description.push_str(&local[place..=place]);
                push_time(&mut description, &local[place..]);
            }
            None if begins_with_time(local) => push_time(&mut description, local),
            None if local.is_empty() && zone.is_numeric() => {}
            None => description.push_str(DATE),
        }
        match zone {
            Zone::Minutes => description.push_str(OFFSET),
            Zone::Seconds => description.extend([OFFSET, OFFSET_SECOND]),
            Zone::Utc => {
                let moment = read(Version::Three, &description, local)?;
                return Ok(Self { offset_seconds: Some(0), ..moment });
            }
            Zone::None => {}
        }
        read(Version::Three, &description, text)
    }
}

/// What reads a time as precise as the text is.
fn push_time(description: &mut String, text: &str) {
    description.push_str(TO_MINUTES);
    if text.matches(':').count() > 1 {
        description.push_str(SECOND);
        if text.contains('.') {
            description.push_str(FRACTION);
        }
    }
}

/// Whether digits and a colon stand in front.
fn begins_with_time(text: &str) -> bool {
    text.trim_start_matches(|letter: char| letter.is_ascii_digit()).starts_with(':')
}

/// What a text has at its end.
#[derive(Debug, Clone, Copy, PartialEq, Eq)]
enum Zone {
    None,
    /// `Z` or `z`.
    Utc,
    /// As `+01:00`.
    Minutes,
    /// As `+01:00:30`.
    Seconds,
}

impl Zone {
    fn is_numeric(self) -> bool {
        matches!(self, Self::Minutes | Self::Seconds)
    }
}

/// The text before its offset, and of which form that is.
fn split_zone(text: &str) -> (&str, Zone) {
    if let Some(local) = text.strip_suffix(['Z', 'z']) {
        return (local, Zone::Utc);
    }
    let numeric = [(Zone::Minutes, "+00:00"), (Zone::Seconds, "+00:00:00")];
    let split = numeric.into_iter().find_map(|(zone, form)| {
        let (local, end) = text.split_at_checked(text.len().checked_sub(form.len())?)?;
        has_form(end, form).then_some((local, zone))
    });
    split.unwrap_or((text, Zone::None))
}

/// Whether a text has colons where another one has them, and a sign in front.
fn has_form(text: &str, form: &str) -> bool {
    let mut pairs = text.bytes().zip(form.bytes());
    text.starts_with(['+', '-']) && pairs.all(|(byte, other)| (byte == b':') == (other == b':'))
}
