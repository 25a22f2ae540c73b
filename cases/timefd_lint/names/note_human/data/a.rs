const DAY: &str = "%Y-%J";

fn show(now: DateTime<Utc>) -> String {
    now.format(DAY).to_string()
}
