//! The table of each kind, and its sums.

use crate::kind::Kind;
use crate::library::Call;
use crate::measured::{Measured, Row};
use crate::peer::Peer;

pub fn print(measured: &Measured) {
    for kind in Kind::EVERY {
        print_kind(measured, kind);
    }
}

/// What a kind's times stand beside: the peers of its own kind, and for versions 2 and 3 those of version 1, which read the
/// texts that all have.
fn peers<'a>(measured: &Measured<'a>, kind: Kind) -> Vec<&'a Peer> {
    let of = match kind {
        Kind::One | Kind::Two | Kind::Three => Kind::One,
        Kind::Strftime => Kind::Strftime,
    };
    measured.peers.iter().filter(|peer| peer.kind == of).collect()
}

fn print_kind(measured: &Measured, kind: Kind) {
    let peers = peers(measured, kind);
    print_head(&peers);
    for row in measured.rows.iter().filter(|row| row.text.kinds.contains(&kind)) {
        print_row(row, kind, &peers);
    }
    for is_long in [false, true] {
        print_sum(measured, kind, is_long);
    }
}

fn print_head(peers: &[&Peer]) {
    print!("\n{:<10}{:<30}{:>8}", "kind", "name", "bytes");
    for call in Call::EVERY {
        print!("{:>18}", format!("{} ns", call.label()));
    }
    print!("{:>12}{:>12}", "copy ns", "count ns");
    for peer in peers {
        print!("{:>18}", format!("{} ns", peer.name));
    }
    println!();
}

fn print_row(row: &Row, kind: Kind, peers: &[&Peer]) {
    print!("{:<10}{:<30}{:>8}", kind.label(), row.text.name, row.bytes());
    for call in Call::EVERY {
        print!("{:>18.1}", row.time(call, kind).unwrap_or(f64::NAN));
    }
    print!("{:>12.1}{:>12.1}", row.copy, row.count);
    for peer in peers {
        match row.peer(peer.name) {
            Some(time) => print!("{time:>18.1}"),
            None => print!("{:>18}", "-"),
        }
    }
    println!();
}

fn print_sum(measured: &Measured, kind: Kind, is_long: bool) {
    let is_one = |row: &&Row| row.text.is_long() == is_long && row.text.kinds.contains(&kind);
    let rows: Vec<&Row> = measured.rows.iter().filter(is_one).collect();
    let bytes: usize = rows.iter().map(|row| row.bytes()).sum();
    let name = format!("SUM of {} {} texts", rows.len(), if is_long { "long" } else { "short" });
    print!("{:<10}{name:<30}{bytes:>8}", kind.label());
    for call in Call::EVERY {
        print!("{:>18.1}", rows.iter().filter_map(|row| row.time(call, kind)).sum::<f64>());
    }
    let copy: f64 = rows.iter().map(|row| row.copy).sum();
    let count: f64 = rows.iter().map(|row| row.count).sum();
    println!("{copy:>12.1}{count:>12.1}");
}
