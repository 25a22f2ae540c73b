//! ```
//! # use time::format_description::parse_borrowed;
//! # let both = (
//! parse_borrowed::<2>("[year]-[month]"),
//! # parse_borrowed::<2>("[hour]"));
//! ```

fn f() {
    parse_borrowed::<2>("[day]");
}

/// ```text
/// parse_borrowed::<2>("[year]");
/// ```
fn g() {}
