//! Tests of the feature `macros` stand in `tests`.
