//! Times what writes one moment by a description, which is parsed at each call or was parsed before: the calls of the
//! library and of the crate for Rust, and those of `time`. With ROW, NAME and TIMES it makes one of these calls so
//! often, for what counts instructions.

use std::error::Error;
use std::hint::black_box;
use std::time::Instant;

use time::format_description;
use time::{Date, Month, OffsetDateTime, UtcOffset};
use timefd::{FormatDescription, Moment, Version};
use timefd_bench_dates::library::{self, Nodes};

/// Names, and descriptions that version 3 and `time` read alike.
const ROWS: [(&str, &str); 4] = [
    ("ISO date", "[year]-[month]-[day]"),
    ("ISO date and time", "[year]-[month]-[day]T[hour]:[minute]:[second]"),
    (
        "RFC 3339",
        "[year]-[month]-[day]T[hour]:[minute]:[second].[subsecond]\
         [offset_hour sign:mandatory]:[offset_minute]",
    ),
    (
        "RFC 2822",
        "[weekday repr:short], [day] [month repr:short] [year] [hour]:[minute]:[second] \
         [offset_hour sign:mandatory][offset_minute]",
    ),
];

/// The columns, by the names of calls: those that parse, and those that were handed what was parsed before, into a
/// buffer and into a `String`.
const TABLES: [(&str, &[&str]); 2] = [
    (
        "| Text, parsed at each call | `timefd_format` | `parse` and `format_into` |",
        &["text", "time_text"],
    ),
    (
        "| Text, parsed before | `timefd_format_nodes` | the crate's `write_to_io` | `format_into` | the crate's \
         `format` | `time`'s `format` |",
        &["nodes", "crate", "time", "crate_string", "time_string"],
    ),
];

/// How often a sample makes the call, and how many samples there are: their median is reported. Samples are short,
/// because others may use the machine, and those of all calls alternate.
const CALLS: u32 = 200;
const SAMPLES: usize = 1_001;

/// The moment, as `time` has it.
fn moment_of_time() -> Result<OffsetDateTime, Box<dyn Error>> {
    let day = Date::from_calendar_date(2026, Month::November, 23)?;
    let offset = UtcOffset::from_hms(1, 0, 0)?;
    Ok(day.with_hms_nano(5, 36, 7, 12_345_678)?.assume_offset(offset))
}

/// The moment, as the crate has it.
const MOMENT: Moment = Moment {
    date: Some(timefd::Date { year: 2026, month: 11, day: 23 }),
    time: Some(timefd::Time { hour: 5, minute: 36, second: 7, nanosecond: 12_345_678 }),
    offset_seconds: Some(3600),
};

/// Writes to the front of a buffer, and answers how many bytes these are.
type Call<'a> = Box<dyn FnMut(&mut [u8]) -> usize + 'a>;

/// The calls of this repository.
fn own_calls(text: &str) -> Result<Vec<(&'static str, Call<'_>)>, Box<dyn Error>> {
    let nodes = Nodes::read(text);
    let description = FormatDescription::parse(Version::Three, text)?;
    let string = description.clone();
    Ok(vec![
        ("text", Box::new(move |out| library::format(black_box(text), out))),
        ("nodes", Box::new(move |out| black_box(&nodes).format(out))),
        ("crate", {
            Box::new(move |out| {
                let (room, mut rest) = (out.len(), out);
                black_box(&description).write_to_io(black_box(&MOMENT), &mut rest).unwrap();
                room - rest.len()
            })
        }),
        ("crate_string", {
            Box::new(move |out| {
                copied(&black_box(&string).format(black_box(&MOMENT)).unwrap(), out)
            })
        }),
    ])
}

/// The calls of `time`.
fn calls_of_time(text: &str) -> Result<Vec<(&'static str, Call<'_>)>, Box<dyn Error>> {
    let items = format_description::parse(text)?;
    let string = items.clone();
    let date = moment_of_time()?;
    let into = move |mut out: &mut [u8], items: &[_]| date.format_into(&mut out, items).unwrap();
    Ok(vec![
        ("time_text", {
            Box::new(move |out| into(out, &format_description::parse(black_box(text)).unwrap()))
        }),
        ("time", Box::new(move |out| into(out, black_box(&items)))),
        ("time_string", {
            Box::new(move |out| copied(&date.format(black_box(&string)).unwrap(), out))
        }),
    ])
}

/// Copies a text to the front of a buffer, and answers its length.
fn copied(text: &str, out: &mut [u8]) -> usize {
    out[..text.len()].copy_from_slice(text.as_bytes());
    text.len()
}

/// All calls, with their names.
fn calls(text: &str) -> Result<Vec<(&'static str, Call<'_>)>, Box<dyn Error>> {
    let mut calls = own_calls(text)?;
    calls.extend(calls_of_time(text)?);
    Ok(calls)
}

/// Stops where a call writes another text than the first one.
fn compare(calls: &mut [(&str, Call<'_>)]) {
    let mut written = Vec::new();
    for (name, call) in calls {
        let mut buffer = [0; 128];
        let len = call(&mut buffer);
        written.push(buffer[..len].to_vec());
        assert_eq!(written.last(), written.first(), "`{name}` writes another text");
    }
}

/// The nanoseconds of a call, by one sample.
fn sample(call: &mut Call<'_>) -> f64 {
    let mut buffer = [0; 128];
    let start = Instant::now();
    for _ in 0..CALLS {
        black_box(call(black_box(&mut buffer)));
    }
    start.elapsed().as_nanos() as f64 / f64::from(CALLS)
}

/// The median of the nanoseconds that each call takes.
fn nanoseconds(calls: &mut [(&'static str, Call<'_>)]) -> Vec<(&'static str, f64)> {
    let mut samples: Vec<_> = calls.iter().map(|(name, _)| (*name, Vec::new())).collect();
    for _ in 0..SAMPLES {
        for ((_, call), (_, samples)) in calls.iter_mut().zip(&mut samples) {
            samples.push(sample(call));
        }
    }
    let median = |(name, mut samples): (_, Vec<f64>)| {
        samples.sort_by(f64::total_cmp);
        (name, samples[SAMPLES / 2])
    };
    samples.into_iter().map(median).collect()
}

/// Makes the call of a row and a name so often.
fn repeat(row: &str, name: &str, times: &str) -> Result<(), Box<dyn Error>> {
    let (_, text) = ROWS[row.parse::<usize>()?];
    let mut calls = calls(text)?;
    let (_, call) = calls.iter_mut().find(|call| call.0 == name).ok_or("no such call")?;
    let mut buffer = [0; 128];
    for _ in 0..times.parse::<u32>()? {
        black_box(call(black_box(&mut buffer)));
    }
    Ok(())
}

fn main() -> Result<(), Box<dyn Error>> {
    let words: Vec<String> = std::env::args().skip(1).collect();
    if let [row, name, times] = &words[..] {
        return repeat(row, name, times);
    }
    let mut times = Vec::new();
    for (name, text) in ROWS {
        let mut calls = calls(text)?;
        compare(&mut calls);
        times.push((name, nanoseconds(&mut calls)));
    }
    for (head, names) in TABLES {
        println!("{head}\n|{}", "---|".repeat(names.len() + 1));
        for (row, times) in &times {
            let time = |name: &&str| {
                times.iter().find(|time| time.0 == *name).expect("a name of a call").1
            };
            let columns: Vec<_> =
                names.iter().map(|name| format!("{:.0} ns", time(name))).collect();
            println!("| {row} | {} |", columns.join(" | "));
        }
        println!();
    }
    Ok(())
}
