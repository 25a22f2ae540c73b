//! Prints what a few texts are. `../run.sh` builds and runs it.

// Another program uses the rest of the module.
#[allow(dead_code)]
mod timefd;

use timefd::{STRFTIME, VERSION_1, VERSION_2, VERSION_3};

const MOST_ROOM: usize = 64;

/// A text with its language, and the room for the sentence of its fault in bytes.
struct Sample {
    kind: u32,
    text: &'static [u8],
    room: usize,
}

const fn sample(kind: u32, text: &'static [u8], room: usize) -> Sample {
    Sample { kind, text, room }
}

const SAMPLES: [Sample; 16] = [
    sample(VERSION_1, b"", MOST_ROOM),
    sample(VERSION_1, b"[[[day]", MOST_ROOM),
    sample(VERSION_1, b"[foo bar", MOST_ROOM),
    sample(VERSION_2, b"\\[[day]]", MOST_ROOM),
    sample(VERSION_2, b"[day][foo]", MOST_ROOM),
    sample(VERSION_3, b"due [day]", MOST_ROOM),
    sample(VERSION_3, b"[year]-[month]-[day]", MOST_ROOM),
    sample(VERSION_3, b"due [day", MOST_ROOM),
    sample(VERSION_3, b"due [day", 16),
    sample(VERSION_3, b"due [day", 0),
    sample(VERSION_3, b"[\xc3\xa9]", MOST_ROOM),
    sample(VERSION_3, b"[\xc3\xa9]", 25),
    sample(STRFTIME, b"%Y-%m-%d", MOST_ROOM),
    sample(STRFTIME, b"%O", MOST_ROOM),
    sample(STRFTIME, b"\xff", MOST_ROOM),
    sample(5, b"[day]", MOST_ROOM),
];

/// The sentence of a refused text, as far as there is room for it.
fn print_sentence(sample: &Sample) {
    let mut buffer = [0; MOST_ROOM];
    let answer = timefd::check(sample.kind, sample.text, &mut buffer[..sample.room]);
    if answer.status != timefd::REFUSED {
        println!("out of memory");
        return;
    }
    let written = &buffer[..answer.written];
    let sentence = std::str::from_utf8(written).expect("a sentence is cut between two characters");
    println!(
        "refused at {}, \"{sentence}\", {} of {} bytes",
        answer.value, answer.written, answer.sentence_len
    );
}

fn print_sample(sample: &Sample) {
    let answer = timefd::judge(sample.kind, sample.text);
    print!("{}: ", sample.kind);
    match answer.status {
        timefd::ACCEPTED => {
            let counted = if sample.kind == VERSION_3 {
                "bytes"
            } else {
                "items"
            };
            println!("accepted, {} {counted}", answer.value);
        }
        timefd::REFUSED => print_sentence(sample),
        timefd::NOT_UTF8 => println!("no UTF-8"),
        timefd::NO_MEMORY => println!("out of memory"),
        _ => println!("unknown kind"),
    }
}

fn main() {
    for sample in &SAMPLES {
        print_sample(sample);
    }
}
