use chrono::{DateTime, NaiveDate};

const DAY: &str = "%Y-%J";
static LONG: &'static str = "%d %J";

struct Clock;

impl Clock {
    const FACE: &'static str = "%H:%J";

    fn show(&self) -> String {
        self.now.format(Self::FACE).to_string()
    }
}

fn read(text: &str) -> Option<NaiveDate> {
    let short = NaiveDate::parse_from_str(text, DAY);
    short.or(NaiveDate::parse_from_str(text, &LONG)).ok()
}
