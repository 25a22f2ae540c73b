use chrono::NaiveDate;

const F: &str = "%F";

fn face() -> &'static str {
    "%H"
}

// The text of each of these calls is looked at.
fn read(day: NaiveDate, text: &str) {
    day.format(F);
    day.format(&F);
    NaiveDate::parse_from_str(text, F);
    day.format(face());
    day.format(face());
    let short = "%d";
    day.format(short);
    if late() {
        day.format(short);
    }
    day.format(short);
    let short = "%e";
    day.format(short);
    day.format(short);
    for each in ["%a", "%b"] {
        day.format(each);
        day.format(each);
    }
    for one in LIST {
        day.format(one);
    }
    for two in LIST {
        day.format(two);
        day.format(two);
    }
}

const LIST: [&str; 2] = ["%m", "%y"];
