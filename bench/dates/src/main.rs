//! Compares what the library writes with what `time` writes, on random dates.

mod descriptions;
mod random;

use std::error::Error;

use random::Random;
use timefd::{Moment, Version};

const DATES: usize = 10_000;
const SEED: u64 = 20_261_123;

fn main() -> Result<(), Box<dyn Error>> {
    let mut random = Random::new(SEED);
    let dates: Vec<_> = (0..DATES).map(|_| random.date()).collect();
    let (mut compared, mut not_taken) = (0, 0);
    for text in descriptions::all() {
        let Ok(items) = time::format_description::parse(&text) else {
            not_taken += 1;
            continue;
        };
        compared += 1;
        for date in &dates {
            let expected = random::of_time(date)?.format(&items)?;
            let shown = timefd::format(Version::One, &text, &Moment::from(*date))?;
            if shown != expected {
                return Err(format!("{text} of {date:?}: {shown:?} is not {expected:?}").into());
            }
        }
    }
    println!("{compared} descriptions on {DATES} dates each: as `time` writes them");
    println!("{not_taken} descriptions are not taken by `time`");
    Ok(())
}
