//! A linter: shows which lines of a file aren't descriptions of version 3, and where. `../run.sh` builds and runs it.
//!
//! `lint FILE`: the exit status is 0 if all lines are descriptions, 1 if one isn't, 2 if that isn't known.

// Other programs use the rest of the module.
#[allow(dead_code)]
mod timefd;

use std::process::ExitCode;

/// The most bytes that are shown of a sentence.
const MOST_ROOM: usize = 256;

/// The line, and a caret under the byte at an index. A tab before it stays one, so that the caret stands right.
fn print_caret(line: &str, index: usize) {
    let before = line[..index].chars();
    let spaces: String = before.map(|c| if c == '\t' { c } else { ' ' }).collect();
    println!("{line}\n{spaces}^");
}

/// Shows what is wrong with a line, and answers the exit status that this alone would give.
fn lint_line(file: &str, number: usize, line: &[u8]) -> u8 {
    let mut buffer = [0; MOST_ROOM];
    let answer = timefd::check(timefd::VERSION_3, line, &mut buffer);
    match (answer.status, std::str::from_utf8(line)) {
        (timefd::ACCEPTED, _) => 0,
        (timefd::REFUSED, Ok(line)) => {
            let sentence = String::from_utf8_lossy(&buffer[..answer.written]);
            let column = line[..answer.value].chars().count() + 1;
            println!("{file}:{number}:{column}: {sentence}");
            print_caret(line, answer.value);
            1
        }
        (timefd::NOT_UTF8, _) => {
            println!("{file}:{number}: no UTF-8");
            1
        }
        _ => {
            println!("{file}:{number}: out of memory");
            2
        }
    }
}

fn main() -> ExitCode {
    let words: Vec<String> = std::env::args().skip(1).collect();
    let ([name], Some(Ok(bytes))) = (&words[..], words.first().map(std::fs::read)) else {
        eprintln!("lint FILE: give it a file that can be read");
        return ExitCode::from(2);
    };
    let lines = bytes.split_inclusive(|byte| *byte == b'\n');
    let found = lines.enumerate().map(|(at, line)| {
        let line = line.strip_suffix(b"\n").unwrap_or(line);
        lint_line(name, at + 1, line)
    });
    ExitCode::from(found.max().unwrap_or(0))
}
