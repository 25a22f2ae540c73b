use chrono::NaiveDate;

impl Table {
    const F: &'static str = "%F";
    const G: &'static str = "%G";

    fn face(&self) -> &'static str {
        "%H"
    }

    // Each of these calls is counted.
    fn unread(&self, day: NaiveDate, text: &str) {
        NaiveDate::parse_from_str(text, other::F);
        NaiveDate::parse_from_str(text, &self.config.format);
        NaiveDate::parse_from_str(text, self.format.as_str());
        NaiveDate::parse_from_str(text, FORMATS[0]);
        NaiveDate::parse_from_str(text, found.unwrap_or_default());
        NaiveDate::parse_from_str(text, concat!("%Y", "-%m"));
        NaiveDate::parse_from_str(text, &format!("%Y{}", end));
        day.format(crate::DATE);
        time::format_description::parse(&self.format);
    }

    // These aren't.
    fn read(&self, text: &str) {
        NaiveDate::parse_from_str(text, Self::F);
        NaiveDate::parse_from_str(text, Self::G.as_str());
        NaiveDate::parse_from_str(text, self.face());
        NaiveDate::parse_from_str(text, &String::from("%d"));
        NaiveDate::parse_from_str(text, match self.kind {
            Kind::Day => "%d",
            Kind::Week => unreachable!(),
        });
    }
}
