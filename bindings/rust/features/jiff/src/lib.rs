//! Tests of the feature `jiff` stand in `tests`.
