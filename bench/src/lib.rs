//! Times the calls that read format descriptions, beside the limits of the machine on the same bytes and beside other readers
//! that a caller hands in.

mod descriptions;
mod flatness;
mod goals;
mod kind;
mod library;
mod measured;
mod peer;
mod sampling;
mod tables;
mod text;

pub use kind::Kind;
pub use peer::Peer;

use library::{Call, Room};
use measured::Measured;
use sampling::{Task, Work, sample};
use std::time::Duration;
use text::Text;

/// How long the samples take all together.
const FULL: Duration = Duration::from_secs(30);
const QUICK: Duration = Duration::from_secs(3);

/// Measures all descriptions and prints what came of it. The argument `--quick` takes fewer samples.
pub fn run(peers: &[Peer]) {
    let quick = std::env::args().any(|argument| argument == "--quick");
    let texts = descriptions::texts();
    verify(&texts);
    let mut tasks = tasks(&texts, peers);
    let rounds = sample(&mut tasks, if quick { QUICK } else { FULL });
    let measured = Measured::new(&texts, peers, &tasks);
    println!("{} texts, {} rows, medians of {rounds} interleaved rounds", texts.len(), tasks.len());
    tables::print(&measured);
    flatness::print(&measured);
    goals::print(&measured);
}

/// Every call has to accept each text in each language that it is measured in.
fn verify(texts: &[Text]) {
    let longest = texts.iter().map(|text| text.text.len()).max();
    let mut room = Room::new(longest.unwrap_or(0));
    for text in texts {
        for &kind in text.kinds {
            for call in Call::EVERY {
                assert!(
                    call.accepts(kind, &text.text, &mut room),
                    "{} of {} does not accept \"{}\": {:?}",
                    call.label(),
                    kind.label(),
                    text.name,
                    text.text
                );
            }
        }
    }
}

/// Each text in each of its languages, in each peer that takes it, and at the limits of the machine.
fn tasks<'a>(texts: &'a [Text], peers: &'a [Peer]) -> Vec<Task<'a>> {
    let mut tasks = Vec::new();
    for text in texts {
        for &kind in text.kinds {
            tasks.extend(Call::EVERY.map(|call| Task::new(text, Work::Call(call, kind))));
        }
        for peer in peers {
            if text.kinds.contains(&peer.kind) && (peer.read)(&text.text).is_some() {
                tasks.push(Task::new(text, Work::Peer(peer)));
            }
        }
        tasks.push(Task::new(text, Work::Copy));
        tasks.push(Task::new(text, Work::Count));
    }
    tasks
}
