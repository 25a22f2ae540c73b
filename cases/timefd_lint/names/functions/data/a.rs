fn day() -> &'static str {
    "%Y-%J"
}

impl Unit {
    fn face(&self) -> &'static str {
        match self {
            Unit::Hour => "%H",
            Unit::Minute => "%H:%J",
        }
    }

    fn show(&self, now: DateTime<Utc>) -> String {
        now.format(self.face()).to_string()
    }
}

fn show(now: DateTime<Utc>, given: Option<&str>) {
    println!("{}", now.format(day()));
    println!("{}", now.format(given.unwrap_or("%m %J")));
    println!("{}", now.format(&gettext("%d %J")));
    println!("{}", now.format("%e %J".as_ref()));
    println!("{}", now.format(&String::from("%y %J")));
}
