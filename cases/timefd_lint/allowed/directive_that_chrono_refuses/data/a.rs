use chrono::NaiveDate;

fn f(d: NaiveDate) {
    // timefd: allow unknown-directive
    d.format("%Q");
    d.format("%Q");
}
