//! ```text
//! now.format("%J");
//! ```
//!
//! ```toml,ignore
//! now.format("%J");
//! ```
//!
//! ```compile_fail
//! now.format("%J");
//! ```
//!
//! Code as ```now``` in a line opens nothing:
//! now.format("%J");
//!
//! ~~~console
//! ```
//! now.format("%J");
//! ```
//! ~~~
//! now.format("%J");

use chrono::Utc;

// ```
// now.format("%J");
// ```

//// ```
//// now.format("%J");
//// ```

/** ```
now.format("%J");
``` */
fn day() {}

/// ```
const TEXT: &str = "
/// now.format(\"%J\");
/// ```
";
