//! Texts whose answers are known, through the crate.

mod accepted;
mod builder;
mod components;
mod conversions;
mod dates;
mod dialects;
mod faults;
mod moments;
mod presets;
mod refused;
mod rows;
mod values;
