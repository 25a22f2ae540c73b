#![doc = include_str!("../../../src/serde.md")]
