//! Three tasks with formats of dates:
//!
//! - `tasks log CONFIG [MOMENT] < MESSAGES` writes each line after the time, by the format under
//!   `timestamp` of a TOML file;
//! - `tasks column FROM TO < IN.csv` rewrites the dates of the first column; a line whose date isn't
//!   read stays as it is;
//! - `tasks check < FORMATS` says for each format how long a date gets, or what is wrong.

use std::error::Error;
use std::io::{self, Write as _};
use std::{env, fs, process};

use timefd::{FormatDescription, Moment, ParseError, Version};

/// A run succeeds, or says why it doesn't.
type Run = Result<(), Box<dyn Error>>;

fn parsed(text: &str) -> Result<FormatDescription<'_>, String> {
    FormatDescription::parse(Version::Three, text).map_err(|error| refused(&error))
}

fn refused(error: &ParseError) -> String {
    match error.fault().and_then(|fault| fault.nearest()) {
        Some(word) => format!("{error}; the nearest word is `{word}`"),
        None => error.to_string(),
    }
}

fn log(config: &str, moment: Option<&String>) -> Run {
    let config = fs::read_to_string(config)?;
    let setting = config.lines().find_map(|line| line.strip_prefix("timestamp = "));
    let timestamp = parsed(setting.ok_or("there is no `timestamp`")?.trim_matches('"'))?;
    let now = moment.map_or_else(|| Ok(Moment::now_utc()), |text| text.parse())?;
    for line in io::stdin().lines() {
        println!("{} {}", timestamp.format(&now)?, line?);
    }
    Ok(())
}

fn column(from: &str, to: &str) -> Run {
    let (from, to) = (parsed(from)?, parsed(to)?);
    for (number, line) in (1..).zip(io::stdin().lines()) {
        let line = line?;
        let (date, others) = line.split_at(line.find(',').unwrap_or(line.len()));
        match from.read(date) {
            Ok(date) => println!("{}{others}", to.format(&date)?),
            Err(error) => {
                println!("{line}");
                writeln!(io::stderr(), "line {number}: {error}")?;
            }
        }
    }
    Ok(())
}

fn check() -> Run {
    for text in io::stdin().lines() {
        let text = text?;
        match parsed(&text) {
            Ok(description) => println!("{text}: at most {} bytes", description.max_bytes_needed()),
            Err(error) => println!("{text}: {error}"),
        }
    }
    Ok(())
}

fn main() {
    let words: Vec<String> = env::args().skip(1).collect();
    let run = match words.iter().map(String::as_str).collect::<Vec<_>>()[..] {
        ["log", config, ..] => log(config, words.get(2)),
        ["column", from, to] => column(from, to),
        ["check"] => check(),
        _ => Err("usage: tasks log CONFIG [MOMENT] | tasks column FROM TO | tasks check".into()),
    };
    if let Err(error) = run {
        eprintln!("{error}");
        process::exit(1);
    }
}
