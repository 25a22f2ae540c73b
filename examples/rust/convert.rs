//! Rewrites a few texts of version 1 in version 2, one of version 2 in version 3, and one of each language in version 3's
//! normal form. `../run.sh` builds and runs it.

// Another program uses the rest of the module.
#[allow(dead_code)]
mod timefd;

use timefd::Answer;

const TEXTS: [&[u8]; 9] = [
    b"",
    b"[[day]]",
    b"[[[day]]\\",
    b"a]b",
    b"\xc3\xa9\\\xc3\xa9",
    b"[YEAR Repr:Century]",
    b"[optional [x]]",
    b"a[day",
    b"\xff",
];

/// What is said where no text was written.
fn print_refusal(answer: &Answer) {
    match answer.status {
        timefd::REFUSED => println!("refused at {}", answer.value),
        timefd::NOT_UTF8 => println!("no UTF-8"),
        _ => println!("out of memory"),
    }
}

fn print_converted(text: &[u8]) {
    let mut buffer = vec![0; 2 * text.len()];
    let answer = timefd::v1_to_v2(text, &mut buffer);
    if answer.status == timefd::ACCEPTED {
        let text = String::from_utf8_lossy(text);
        let converted = String::from_utf8_lossy(&buffer[..answer.written]);
        println!("\"{text}\" is \"{converted}\"");
    } else {
        print_refusal(&answer);
    }
}

/// A buffer that is too short is kept, and the answer says how long it has to be.
fn print_short(text: &str) {
    let mut buffer = *b"....";
    let answer = timefd::v1_to_v2(text.as_bytes(), &mut buffer);
    if answer.status == timefd::ACCEPTED {
        println!(
            "\"{text}\" needs {} bytes, and of 4 got {}: \"{}\"",
            answer.value,
            answer.written,
            String::from_utf8_lossy(&buffer)
        );
    } else {
        print_refusal(&answer);
    }
}

/// How long the text of version 3 is, is asked first.
fn print_modern(text: &str) {
    let room = timefd::v2_to_v3(text.as_bytes(), &mut []).value;
    let mut buffer = vec![0; room];
    let answer = timefd::v2_to_v3(text.as_bytes(), &mut buffer);
    if answer.status == timefd::ACCEPTED {
        let modern = String::from_utf8_lossy(&buffer[..answer.written]);
        println!("\"{text}\" is \"{modern}\" in version 3");
    } else {
        print_refusal(&answer);
    }
}

/// The same from any language to any other, where a conversion leads there.
fn print_between(from: u32, to: u32, text: &str) {
    let room = timefd::convert(from, to, text.as_bytes(), &mut []).value;
    let mut buffer = vec![0; room];
    let answer = timefd::convert(from, to, text.as_bytes(), &mut buffer);
    match answer.status {
        timefd::ACCEPTED => {
            let converted = String::from_utf8_lossy(&buffer[..answer.written]);
            println!("\"{text}\" goes from {from} to {to} as \"{converted}\"");
        }
        timefd::NO_CONVERSION => println!("nothing goes from {from} to {to}"),
        timefd::UNKNOWN_KIND => println!("{from} or {to} is no language"),
        _ => print_refusal(&answer),
    }
}

fn main() {
    for text in TEXTS {
        print_converted(text);
    }
    print_short("a]b");
    print_short("a]]b");
    print_modern("[YEAR] a]b");
    print_modern("a[day");
    print_between(timefd::VERSION_1, timefd::VERSION_3, "[[[YEAR]]");
    print_between(timefd::VERSION_3, timefd::VERSION_3, "[optional  [[ day padding:zero ]]]");
    print_between(timefd::STRFTIME, timefd::VERSION_3, "%F 100%%");
    print_between(timefd::VERSION_3, timefd::VERSION_3, "a[day");
    print_between(timefd::VERSION_3, timefd::VERSION_2, "[day]");
    print_between(5, timefd::VERSION_3, "[day]");
}
