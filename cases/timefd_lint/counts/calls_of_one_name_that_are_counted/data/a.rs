use chrono::NaiveDate;
use jiff::fmt::strtime;

const F: &str = "%F";

fn other_language(day: NaiveDate, zoned: &Zoned) {
    day.format(F);
    day.format(F);
    strtime::format(F, zoned);
}

fn other_items() {
    let year = "[year]";
    time::format_description::parse_borrowed::<2>(year);
    time::format_description::parse_owned::<2>(year);
}

fn other_text(day: NaiveDate, given: &str) {
    let short = "%d";
    day.format(short);
    let short = given;
    day.format(short);
}

fn other_scope(day: NaiveDate, short: &str) {
    day.format(short);
    for each in ["%a"] {
        day.format(each);
    }
    day.format(each);
}
