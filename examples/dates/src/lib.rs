//! Dates, and a reader of them that is driven by the format descriptions of the crate `timefd`, which
//! writes them itself. `../run.sh` builds and runs the two programs.

mod calendar;
mod civil;
mod input;
mod names;
mod read;

pub use civil::Civil;
pub use read::{ReadError, read};
