// What a program prints: `timefd_lint source.rs` finds the formats.
use chrono::NaiveDate;
use time::format_description;
use time::macros::format_description;

const DAY: &[time::format_description::BorrowedFormatItem<'_>] =
    format_description!("[year]-[mnth]-[day]");

fn print(date: NaiveDate) {
    let hour = format_description::parse("[hour]:[minute]");
    let second = format_description::parse_borrowed::<2>(
        "[hour]\u{2d}[second padding:zro]",
    );
    let week = date.format("%G-W%V-%Q");
    // timefd: 3
    let optional = "[optional [day]";
}
