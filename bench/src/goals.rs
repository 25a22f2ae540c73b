//! What is asked of the calls, and what was reached.

use crate::flatness::growths;
use crate::kind::Kind;
use crate::library::Call;
use crate::measured::{Measured, Pairs};
use crate::peer::Peer;

/// How many times the time of version 2 version 3 takes, where nothing is built.
const VERSION_3: f64 = 1.2;
/// Gigabytes in a second of a literal of 100 kB.
const LITERAL: f64 = 14.0;
/// How many times the time of a byte at 1 kB that at 100 kB is.
const FLAT: f64 = 1.2;

/// What a number has to be.
enum Asked {
    AtLeast(f64),
    AtMost(f64),
    Nothing,
}

/// How many times as fast as a peer a call is to be.
fn asked(call: Call, kind: Kind, peer: &Peer, is_long: bool) -> Asked {
    match (call, kind, is_long) {
        (Call::Read, Kind::One | Kind::Two, false) => Asked::AtLeast(2.2),
        (Call::Read, Kind::One | Kind::Two, true) => Asked::AtLeast(2.0),
        (Call::ParseBorrowed | Call::Judge, Kind::One | Kind::Two, _) => Asked::AtLeast(2.2),
        (Call::ParseInRust, Kind::One, false) => Asked::AtLeast(1.3),
        (Call::Judge, Kind::Strftime, _) if peer.answers_items => Asked::AtLeast(4.0),
        _ => Asked::Nothing,
    }
}

pub fn print(measured: &Measured) {
    println!("\n{:<64}{:>9}{:>9}", "goal", "asked", "reached");
    for call in Call::EVERY {
        for peer in measured.peers {
            for kind in kinds_beside(peer) {
                print_beside(measured, call, kind, peer);
            }
        }
    }
    for call in Call::EVERY {
        print_version_3(measured, call);
    }
    print_literal(measured);
    print_growth(measured);
}

/// The languages whose texts stand beside those of a peer.
fn kinds_beside(peer: &Peer) -> Vec<Kind> {
    Kind::EVERY.into_iter().filter(|kind| (*kind == Kind::Strftime) == (peer.kind == Kind::Strftime)).collect()
}

fn print_goal(name: &str, asked: Asked, reached: f64, note: &str) {
    let (words, verdict) = match asked {
        Asked::AtLeast(bound) => (format!(">= {bound:.1}"), if reached >= bound { "yes" } else { "no" }),
        Asked::AtMost(bound) => (format!("<= {bound:.1}"), if reached <= bound { "yes" } else { "no" }),
        Asked::Nothing => (String::new(), ""),
    };
    println!("{name:<64}{words:>9}{reached:>9.2}  {verdict:<3}  {note}");
}

fn note(pairs: &Pairs) -> String {
    let (least, most) = pairs.range();
    format!("mean of texts {:.2}, from {least:.2} to {most:.2}", pairs.of_means())
}

fn length(is_long: bool) -> &'static str {
    if is_long { "long" } else { "short" }
}

fn print_beside(measured: &Measured, call: Call, kind: Kind, peer: &Peer) {
    for is_long in [false, true] {
        let pairs = measured.pairs(is_long, |row| row.time(call, kind), |row| row.peer(peer.name));
        let texts = format!("{} {}", pairs.len(), length(is_long));
        let name = format!("{}, {}, times as fast as {}, {texts}", call.label(), kind.label(), peer.name);
        print_goal(&name, asked(call, kind, peer, is_long), pairs.of_sums(), &note(&pairs));
    }
}

fn print_version_3(measured: &Measured, call: Call) {
    for is_long in [false, true] {
        let pairs = measured.pairs(is_long, |row| row.time(call, Kind::Two), |row| row.time(call, Kind::Three));
        let name = format!("{}, version 3 over version 2, {} {}", call.label(), pairs.len(), length(is_long));
        let asked = if call == Call::Judge { Asked::AtMost(VERSION_3) } else { Asked::Nothing };
        print_goal(&name, asked, pairs.of_sums(), &note(&pairs));
    }
}

fn print_literal(measured: &Measured) {
    for kind in Kind::EVERY {
        for row in &measured.rows {
            if let Some(("literal", 100_000)) = row.text.family
                && let Some(time) = row.time(Call::Judge, kind)
            {
                let name = format!("{}, {}, a literal of 100 kB, GB/s", Call::Judge.label(), kind.label());
                let bytes = row.bytes() as f64;
                let machine = format!("a copy {:.1}, a count {:.1}", bytes / row.copy, bytes / row.count);
                print_goal(&name, Asked::AtLeast(LITERAL), bytes / time, &machine);
            }
        }
    }
}

fn print_growth(measured: &Measured) {
    for kind in Kind::EVERY {
        let growths = growths(measured).into_iter().filter(|growth| growth.kind == kind);
        let worst = growths.max_by(|a, b| a.factor().total_cmp(&b.factor()));
        if let Some(worst) = worst {
            let name = format!("{}, {}, a byte, 100 kB over 1 kB, the worst", Call::Judge.label(), kind.label());
            print_goal(&name, Asked::AtMost(FLAT), worst.factor(), worst.family);
        }
    }
}
