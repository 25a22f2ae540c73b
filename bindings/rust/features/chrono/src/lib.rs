//! Tests of the feature `chrono` stand in `tests`.
