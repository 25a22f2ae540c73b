use chrono::{DateTime, Utc};

fn show(now: DateTime<Utc>) {
    now.format("%-b %Y");
    now.format("%Y %J");
    now.format("%Y%");
    now.format("\x25-b %Y");
    now.format("%Y %Z %-b");
    now.format("%w");
}
