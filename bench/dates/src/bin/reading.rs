//! Reads one date by a description that was parsed before, so often as asked: ROW NAME TIMES, for what counts instructions. The
//! names are the library's `nodes`, the `crate` for Rust, and `time`.

use std::error::Error;
use std::hint::black_box;

use time::{Date, PrimitiveDateTime, format_description};
use timefd::{FormatDescription, Version};
use timefd_bench_dates::library::Nodes;

/// Descriptions that version 3 and `time` read alike, and a date for each.
const ROWS: [(&str, &str); 3] = [
    ("[year]-[month]-[day]", "2026-11-23"),
    ("[year]-[month]-[day]T[hour]:[minute]:[second]", "2026-11-23T05:36:07"),
    ("[year]-[month repr:short]-[day]", "2026-Nov-23"),
];

/// Reads a date, and answers its year.
type Call<'a> = Box<dyn Fn(&str) -> i32 + 'a>;

fn call<'a>(name: &str, text: &'a str) -> Result<Call<'a>, Box<dyn Error>> {
    Ok(match name {
        "nodes" => {
            let nodes = Nodes::read(text);
            Box::new(move |date| nodes.year_of(date))
        }
        "crate" => {
            let description = FormatDescription::parse(Version::Three, text)?;
            Box::new(move |date| description.read(date).unwrap().date.unwrap().year)
        }
        "time" if text.contains("[hour]") => {
            let items = format_description::parse(text)?;
            Box::new(move |date| PrimitiveDateTime::parse(date, &items).unwrap().year())
        }
        "time" => {
            let items = format_description::parse(text)?;
            Box::new(move |date| Date::parse(date, &items).unwrap().year())
        }
        _ => return Err("no such call".into()),
    })
}

fn main() -> Result<(), Box<dyn Error>> {
    let words: Vec<String> = std::env::args().skip(1).collect();
    let [row, name, times] = &words[..] else {
        return Err("ROW NAME TIMES".into());
    };
    let (text, date) = ROWS[row.parse::<usize>()?];
    let call = call(name, text)?;
    for _ in 0..times.parse::<u32>()? {
        assert_eq!(black_box(call(black_box(date))), 2026);
    }
    Ok(())
}
