use chrono::DateTime;

fn show(now: DateTime<Utc>, text: &str, day: &str) {
    now.format(day);
    NaiveDate::parse_from_str(text, day);
    NaiveDate::parse_from_str(text, "%F");
}
