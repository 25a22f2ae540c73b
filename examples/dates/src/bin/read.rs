//! Reads dates. Each line of the file is a description of version 1 and, after a bar, a date:
//!
//! ```text
//! [day]. [month repr:long] [year]|23. November 2026
//! ```

use std::error::Error;
use std::{env, fs};

use dates::{Civil, read};
use timefd::{FormatDescription, Version};

/// The date that a line is.
fn date(line: &str) -> Result<Civil, Box<dyn Error>> {
    let (text, input) = line.split_once('|').ok_or("a line has a bar")?;
    let description = FormatDescription::parse(Version::One, text)?;
    Ok(read(&description, input)?)
}

fn main() -> Result<(), Box<dyn Error>> {
    let file = env::args().nth(1).ok_or("read FILE: give it a file")?;
    for line in fs::read_to_string(file)?.lines() {
        match date(line) {
            Ok(Civil { year, month, day, hour, minute, second, nanosecond, offset }) => {
                println!("{year} {month} {day} {hour} {minute} {second} {nanosecond} {offset}");
            }
            Err(error) => println!("{error}"),
        }
    }
    Ok(())
}
