use chrono::NaiveDate;
use std::borrow::Cow;

const F: &str = "%Y %J" as &str;

fn show(day: NaiveDate, given: Option<&str>) {
    let borrowed = Cow::Borrowed("%m %J");
    let short = given.unwrap_or_else(|| "%d %J");
    day.format(F as &str);
    day.format(&borrowed);
    day.format(short);
    day.format(&Cow::Borrowed("%y %J"));
    day.format(&std::borrow::Cow::Borrowed("%b %J"));
    day.format(&Cow::from("%B %J"));
    day.format("%e %Y %J" as &str);
    day.format(given.unwrap_or_else(|| "%H %J"));
    day.format(given.unwrap_or_else(|| { "%I %J" }));
    NaiveDate::parse_from_str(text, &Cow::Borrowed("%J"));
    NaiveDate::parse_from_str(text, "%J" as &str);
    NaiveDate::parse_from_str(text, given.unwrap_or_else(|| "%J %n"));
}

// These texts are no formats.
fn others(day: NaiveDate) {
    let borrowed = Cow::Borrowed("%Y %J");
    let short = given.unwrap_or_else(|| "%Y %J");
    let called = given.map(|| "%Y %J");
    log(Cow::Borrowed("%Y %J"), "%Y %J" as &str);
    day.format("%Y");
}
