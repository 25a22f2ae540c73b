use chrono::Utc;

const F: &str = "%F";

/// ```
/// use chrono::Utc;
/// const G: &str = "%G";
/// now.format(G);
/// now.format(F);
/// let open = ["%d",
/// ```
///
/// ```
/// use chrono::NaiveDate;
/// NaiveDate::parse_from_str(text, G);
/// ```
fn f() {
    now.format(F);
    now.format(G);
}
