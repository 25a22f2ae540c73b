//! Versions as numbers.

use serde_json::value::{Serializer, Value};
use serde_json::{Error, json};
use timefd::Version;
use timefd::serde::version;

/// A value that a version is read of. Its error shows itself without a line and a column.
fn read(value: &Value) -> Result<Version, String> {
    version::deserialize(value).map_err(|error: Error| error.to_string())
}

#[test]
fn each_version_is_its_number() {
    for (number, version) in [(1, Version::One), (2, Version::Two), (3, Version::Three)] {
        assert_eq!(read(&json!(number)), Ok(version));
        assert_eq!(version::serialize(&version, Serializer).expect("a number"), number);
    }
}

#[test]
fn nothing_else_is_a_version() {
    let rows = [
        (json!(0), "invalid value: integer `0`"),
        (json!(4), "invalid value: integer `4`"),
        (json!(-1), "invalid value: integer `-1`"),
        (json!(257), "invalid value: integer `257`"),
        (json!(u64::MAX), "invalid value: integer `18446744073709551615`"),
        (json!(1.5), "invalid type: floating point `1.5`"),
        (json!("3"), "invalid type: string \"3\""),
        (json!(null), "invalid type: null"),
    ];
    for (value, found) in rows {
        let sentence = format!("{found}, expected the number of a version: 1, 2 or 3");
        assert_eq!(read(&value), Err(sentence));
    }
}
