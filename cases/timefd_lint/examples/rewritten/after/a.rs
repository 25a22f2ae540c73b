//! ```
//! # use time::format_description::parse_borrowed;
//! # let both = (
//! parse_borrowed::<3>("[year range:extended]-[month]"),
//! # parse_borrowed::<3>("[hour]"));
//! ```

fn f() {
    parse_borrowed::<3>("[day]");
}

/// ```text
/// parse_borrowed::<2>("[year]");
/// ```
fn g() {}
