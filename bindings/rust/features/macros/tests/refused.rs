//! What the compiler says of a bad description, and where it marks it.

use std::env;
use std::fs;
use std::path::PathBuf;
use std::process::Command;

/// The arguments of a call; the column in these of what is marked; the one where a compiler marks that
/// can mark places inside a literal; and the message, with its lines between ` | `.
const REFUSED: &[(&str, i32, i32, &str)] = &[
    (
        r#"!("[year]-[mnth]")"#,
        3,
        12,
        "invalid component name `mnth` at byte index 8 | the nearest word is `month`",
    ),
    (
        r##"!(r#"[year]-[mnth]"#)"##,
        3,
        14,
        "invalid component name `mnth` at byte index 8 | the nearest word is `month`",
    ),
    (r#"!("[day")"#, 3, 4, "unclosed opening bracket at byte index 0"),
    (
        r#"!("\u{e9}\t[mnth]")"#,
        3,
        13,
        "invalid component name `mnth` at byte index 4 | the nearest word is `month`",
    ),
    (r#"!(version = 2, "[day]\\x")"#, 16, 24, "expected valid escape sequence at byte index 6"),
    (r#"!(strftime, "%Y-%Q")"#, 13, 18, "invalid component name `Q` at byte index 4"),
];

/// Arguments that aren't understood, the column in these where they are refused, and the message.
const NOT_UNDERSTOOD: &[(&str, i32, &str)] = &[
    ("!(7)", 3, "expected a string literal, as \"[year]\""),
    (r#"!(b"[day]")"#, 3, "expected a string literal, as \"[year]\""),
    (r#"!(version = 4, "[day]")"#, 13, "unknown version: expected 1, 2 or 3"),
    (r#"!(chrono, "%Y")"#, 3, "expected a string literal, or `version = 1`"),
    (r#"!("[day]" "[month]")"#, 11, "expected a string literal, or `version = 1`"),
    ("!()", -25, "expected a string literal, or `version = 1`"),
];

/// What `cargo check` says of a program of these calls, each in a line: its errors and warnings, each
/// a line that begins with a place.
fn said(name: &str, calls: &[&str], marks_inside: bool) -> Vec<String> {
    let folder = PathBuf::from(env!("CARGO_TARGET_TMPDIR")).join(name);
    fs::create_dir_all(folder.join("src")).unwrap();
    let crate_folder = concat!(env!("CARGO_MANIFEST_DIR"), "/../..");
    let manifest = format!(
        "[package]\nname = \"{name}\"\nedition = \"2024\"\n[workspace]\n\
         [dependencies]\ntimefd = {{ path = {crate_folder:?}, features = [\"macros\"] }}\n"
    );
    fs::write(folder.join("Cargo.toml"), manifest).unwrap();
    let lines: String =
        calls.iter().map(|call| format!("    _ = timefd::format_description{call};\n")).collect();
    fs::write(folder.join("src/main.rs"), format!("fn main() {{\n{lines}}}\n")).unwrap();
    let mut check = Command::new(env!("CARGO"));
    check.args(["check", "--offline", "--quiet", "--message-format=short"]);
    check.current_dir(&folder).env("CARGO_TARGET_DIR", folder.join("target"));
    check.env("RUSTC_BOOTSTRAP", if marks_inside { "1" } else { "0" });
    let output = check.output().unwrap();
    let text = String::from_utf8(output.stderr).unwrap();
    let mut said: Vec<String> = Vec::new();
    for line in text.lines() {
        match said.last_mut() {
            Some(last) if !line.starts_with("src/") && !line.starts_with("error: could not") => {
                last.push_str(" | ");
                last.push_str(line.strip_prefix(INDENT).unwrap_or(line));
            }
            _ => said.push(line.to_owned()),
        }
    }
    said.retain(|line| line.starts_with("src/"));
    said
}

/// What stands before the second line of a message and all further ones.
const INDENT: &str = "       ";

/// Where the arguments begin in their line.
const BEGIN: i32 = 34;

fn of_line(said: &[String], line: usize) -> &str {
    let place = format!("src/main.rs:{}:", line + 2);
    said.iter().find(|it| it.starts_with(&place)).map_or("nothing", String::as_str)
}

#[test]
fn the_message_marks_the_text() {
    let calls: Vec<_> = REFUSED.iter().map(|row| row.0).collect();
    let said = said("message", &calls, false);
    for (line, (call, column, _, message)) in REFUSED.iter().enumerate() {
        let wanted = format!("src/main.rs:{}:{}: error: ", line + 2, BEGIN + column);
        let found = of_line(&said, line);
        let first = message.split(" | ").next().unwrap();
        assert!(found.starts_with(&format!("{wanted}{first}")), "{call}: {found}");
        let advice = message.split(" | ").nth(1);
        assert!(found.ends_with(advice.unwrap_or("^")), "{call}: {found}");
    }
    assert!(of_line(&said, 0).contains(" | [year]-[mnth] |         ^^^^ the nearest"), "{said:?}");
}

#[test]
fn a_place_inside_of_the_literal_is_marked() {
    let calls: Vec<_> = REFUSED.iter().map(|row| row.0).collect();
    let said = said("place", &calls, true);
    for (line, (call, _, column, message)) in REFUSED.iter().enumerate() {
        let wanted = format!("src/main.rs:{}:{}: error: {message}", line + 2, BEGIN + column);
        assert_eq!(of_line(&said, line), wanted, "{call}");
    }
}

#[test]
fn what_is_not_understood_is_refused_there() {
    let calls: Vec<_> = NOT_UNDERSTOOD.iter().map(|row| row.0).collect();
    let said = said("call", &calls, false);
    for (line, (call, column, message)) in NOT_UNDERSTOOD.iter().enumerate() {
        let wanted = format!("src/main.rs:{}:{}: error: {message}", line + 2, BEGIN + column);
        let found = of_line(&said, line);
        assert!(found.starts_with(&wanted), "{call}: {found}");
    }
}

#[test]
fn what_is_suspect_is_a_warning() {
    let calls = [r#"!("%Y-%m-%d")"#, r#"!("[year]-[month]-[day]")"#, r#"!("[month]/[day]")"#];
    let said = said("suspect", &calls, false);
    let wanted = "no-component: it has no component, so that each moment is written alike";
    let found = of_line(&said, 0);
    assert!(found.starts_with("src/main.rs:2:37: warning: "), "{found}");
    assert!(found.contains(wanted), "{found}");
    assert_eq!((of_line(&said, 1), of_line(&said, 2)), ("nothing", "nothing"));
}
