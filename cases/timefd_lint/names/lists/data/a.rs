const DATES: &[&str] = &["%Y-%m-%d", "%d.%m.%J"];
const TIMES: [&str; 2] = ["%H:%J", "%H:%M"];

fn read(text: &str) -> Option<NaiveDate> {
    for date in DATES {
        if let Ok(day) = NaiveDate::parse_from_str(text, date) {
            return Some(day);
        }
    }
    for time in TIMES.iter() {
        NaiveTime::parse_from_str(text, time).ok()?;
    }
    for both in ["%Y %J", "%c"] {
        NaiveDateTime::parse_from_str(text, both).ok()?;
    }
    for both in &["%Y %H", "%m %J"] {
        NaiveDateTime::parse_from_str(text, *both).ok()?;
    }
    None
}
