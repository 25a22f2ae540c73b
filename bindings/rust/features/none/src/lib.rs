//! Nothing: `timefd` is built for it with no feature.
