fn show(now: DateTime<Utc>) -> String {
    let day = "%Y-%J";
    let time: &str = "%H:%J";
    format!("{} {}", now.format(day), now.format(&time))
}

fn twice(now: DateTime<Utc>) {
    let day = "%Y-%J";
    println!("{}", now.format(day));
    let day = "%m-%J";
    println!("{}", now.format(day));
}

fn of_time(text: &str) {
    let day = "[year]-[mnth]";
    let day = time::format_description::parse(day)?;
}
