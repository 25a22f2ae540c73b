//! Configurations that hold formats, versions and faults.

mod borrowing;
mod faults;
mod formats;
mod languages;
mod options;
mod values;
mod versions;
