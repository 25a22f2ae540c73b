//! Dates.
//!
//! ```
//! let day = now.format("%F %J");
//! ```

use chrono::Utc;

/// Writes a day.
///
/// ```no_run
/// use chrono::Utc;
///
/// now.format("%J");
/// ```
///
///   ~~~ rust,should_panic
///   now.format("%D");
///   now.format("%F %J");
///   ~~~
fn day() {
    now.format("%J");
}

struct Table {
    /// ```
    /// now.format("%P %J");
    field: u8,
}
