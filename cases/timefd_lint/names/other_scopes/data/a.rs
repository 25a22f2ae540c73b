use chrono::DateTime;

mod a {
    pub const FACE: &str = "%J";
}

fn of_a_sibling() {
    now.format(FACE);
}

const DAY: &str = "%J";

mod b {
    const DAY: &str = "%Y";

    fn of_two() {
        now.format(DAY);
    }
}

fn closed() {
    {
        let day = "%J";
    }
    now.format(day);
}

fn parameter(day: &str) {
    now.format(day);
}

fn closure(all: &[&str]) {
    let day = "%J";
    all.iter().map(|day| now.format(day));
    all.iter().enumerate().map(|(_, day)| now.format(day));
}

fn arms(given: Option<&str>) {
    let day = "%J";
    match given {
        Some(day) => now.format(day),
        None => other(),
    }
}

fn conditions(given: Option<&str>) {
    let day = "%J";
    if let Some(day) = given {
        now.format(day);
    }
}

fn behind_a_loop() {
    for day in ["%J"] {
        other(day);
    }
    now.format(day);
}

fn changed() {
    let mut day = "%J";
    day = "%Y";
    now.format(day);
}
