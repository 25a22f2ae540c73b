/// ```
/// use chrono::Utc;
/// now.format("%Y-%m-%d \
///     %J");
/// now.format("%d");
/// now.format(given);
/// ```
fn f() {}
