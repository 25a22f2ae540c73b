//! The time of a byte in texts of the same make and of growing size, which are counted.

use crate::kind::Kind;
use crate::library::Call;
use crate::measured::{Measured, Row};

/// The sizes that are compared.
const SIZES: [usize; 3] = [1_000, 10_000, 100_000];

/// The time of a byte in a family's texts of the three sizes, in nanoseconds.
pub struct Growth {
    pub kind: Kind,
    pub family: &'static str,
    times: [f64; 3],
}

impl Growth {
    /// How many times the time of a byte in the longest text is that in the shortest one.
    pub fn factor(&self) -> f64 {
        self.times[2] / self.times[0]
    }
}

/// That of each family and kind which has all three sizes.
pub fn growths(measured: &Measured) -> Vec<Growth> {
    let mut growths = Vec::new();
    for kind in Kind::EVERY {
        for row in &measured.rows {
            if let Some((family, size)) = row.text.family
                && size == SIZES[0]
                && row.text.kinds.contains(&kind)
                && let Some(times) = times(measured, kind, family)
            {
                growths.push(Growth { kind, family, times });
            }
        }
    }
    growths
}

fn times(measured: &Measured, kind: Kind, family: &str) -> Option<[f64; 3]> {
    let mut times = [0.0; 3];
    for (time, size) in times.iter_mut().zip(SIZES) {
        let is_it = |row: &&Row| row.text.family == Some((family, size)) && row.text.kinds.contains(&kind);
        let row = measured.rows.iter().find(is_it)?;
        *time = row.time(Call::Judge, kind)? / row.bytes() as f64;
    }
    Some(times)
}

pub fn print(measured: &Measured) {
    println!("\nns for a byte");
    print!("{:<10}{:<30}", "kind", "texts");
    println!("{:>9}{:>9}{:>9}{:>14}", "1 kB", "10 kB", "100 kB", "100 kB/1 kB");
    for growth in growths(measured) {
        let [small, medium, large] = growth.times;
        println!(
            "{:<10}{:<30}{small:>9.3}{medium:>9.3}{large:>9.3}{:>14.2}",
            growth.kind.label(),
            growth.family,
            growth.factor(),
        );
    }
}
