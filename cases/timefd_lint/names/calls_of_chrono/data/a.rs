use chrono::format::StrftimeItems;

fn show(now: DateTime<Utc>, text: &str) {
    now.format_localized("%J", Locale::de_DE);
    StrftimeItems::new("%J");
    chrono::format::StrftimeItems::new_lenient("%J");
    NaiveDate::parse_and_remainder(text, "%J");
    DateTime::format(&now, "%J");
    ChronoLocal::new("%J".into());
    now.format("\x25J");
}
