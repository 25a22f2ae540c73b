//! Writes dates. Each line of the file is a language, the eight numbers of a date and, after a bar,
//! a description:
//!
//! ```text
//! 3 2026 11 23 5 36 7 12345678 3600|[year]-[month]-[day]
//! ```

use std::error::Error;
use std::{env, fs};

use dates::Civil;
use timefd::{FormatError, Lack, Language, Moment};

/// The moment by the description in the language.
fn formatted(language: &str, text: &str, moment: &Moment) -> Result<String, Box<dyn Error>> {
    let language: Language = language.parse()?;
    Ok(timefd::format(language, text, moment).map_err(reason)?)
}

/// Why nothing is written, in few words.
fn reason(error: FormatError) -> String {
    match error {
        FormatError::Unshown { lack: Lack::YearTooLong, .. } => {
            "the year has too many digits".to_owned()
        }
        FormatError::Unshown { lack: Lack::InstantOutOfRange, .. } => {
            "the instant is in no year that is shown".to_owned()
        }
        _ => error.to_string(),
    }
}

/// The date that eight words are.
fn date(words: &[&str]) -> Result<Civil, Box<dyn Error>> {
    let &[year, month, day, hour, minute, second, nanosecond, offset] = words else {
        return Err("a date has eight numbers".into());
    };
    let date = Civil {
        year: year.parse()?,
        month: month.parse()?,
        day: day.parse()?,
        hour: hour.parse()?,
        minute: minute.parse()?,
        second: second.parse()?,
        nanosecond: nanosecond.parse()?,
        offset: offset.parse()?,
    };
    if date.exists() { Ok(date) } else { Err("there is no such date".into()) }
}

/// What a line asks for.
fn written(line: &str) -> Result<String, Box<dyn Error>> {
    let (numbers, text) = line.split_once('|').ok_or("a line has a bar")?;
    let words: Vec<&str> = numbers.split(' ').collect();
    let (language, numbers) = words.split_first().ok_or("a line begins with a language")?;
    formatted(language, text, &date(numbers)?.into())
}

fn main() -> Result<(), Box<dyn Error>> {
    let file = env::args().nth(1).ok_or("format FILE: give it a file")?;
    for line in fs::read_to_string(file)?.lines() {
        match written(line) {
            Ok(text) => println!("\"{text}\""),
            Err(error) => println!("{error}"),
        }
    }
    Ok(())
}
