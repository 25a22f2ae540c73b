//! Times the readers beside those of the crates `time` and `chrono`.

mod peers;

use timefd_bench::{Kind, Peer};

fn main() {
    timefd_bench::run(&[
        Peer { name: "time", kind: Kind::One, answers_items: true, read: peers::read_by_time },
        Peer { name: "chrono", kind: Kind::Strftime, answers_items: false, read: peers::counted_by_chrono },
        Peer { name: "chrono's Vec", kind: Kind::Strftime, answers_items: true, read: peers::collected_from_chrono },
    ]);
}
