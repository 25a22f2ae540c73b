fn show(now: Tm, text: &str, day: &str) {
    now.format(day);
    NaiveDate::parse_from_str(text, day);
}
