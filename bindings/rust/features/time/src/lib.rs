//! Tests of the feature `time` stand in `tests`.
