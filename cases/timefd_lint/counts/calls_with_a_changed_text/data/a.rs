use chrono::NaiveDate;

// Each of these calls is counted.
fn unread(day: NaiveDate, text: &str) {
    NaiveDate::parse_from_str(text, config["format"]);
    NaiveDate::parse_from_str(text, config["format"].as_str());
    NaiveDate::parse_from_str(text, map.get("a"));
    NaiveDate::parse_from_str(text, map.get("a").unwrap());
    NaiveDate::parse_from_str(text, &env::var("FORMAT").unwrap());
    NaiveDate::parse_from_str(text, given.expect("there is no format"));
    NaiveDate::parse_from_str(text, given.map_or("%J", short));
    NaiveDate::parse_from_str(text, given.map_or("%J", |it| it.format));
    NaiveDate::parse_from_str(text, given.unwrap_or_else(|| panic!("%J")));
    NaiveDate::parse_from_str(text, "%J".trim());
    NaiveDate::parse_from_str(text, "%J".trim().as_ref());
    NaiveDate::parse_from_str(text, start + "%J");
    NaiveDate::parse_from_str(text, &(start + "%J"));
    NaiveDate::parse_from_str(text, &("%J".to_owned() + end));
    NaiveDate::parse_from_str(text, f?);
    NaiveDate::parse_from_str(text, found.format?);
    day.format("%J".trim());
    day.format(Self::F + "%J");
}

// These aren't.
fn read(day: NaiveDate, text: &str) {
    NaiveDate::parse_from_str(text, map.get("%J").unwrap_or("%d"));
    NaiveDate::parse_from_str(text, map.get("%J").unwrap_or_else(|| "%e"));
    NaiveDate::parse_from_str(text, if text.starts_with("%J") { "%F" } else { "%D" });
    NaiveDate::parse_from_str(text, match kind {
        Kind::Named("%J") => "%H",
        Kind::Other => "%I",
    });
    NaiveDate::parse_from_str(text, {
        log::info("%J");
        found?;
        "%J".len();
        "%M"
    });
    log(config["%J"], "%J".trim(), start + "%J", f?);
}
