//! The descriptions, as tables of data.

mod brackets;
mod long;
mod strftime;

use crate::text::{Text, of_family, of_table};

/// All texts.
pub fn texts() -> Vec<Text> {
    let tables = brackets::TABLES.iter().chain([&strftime::TABLE]);
    tables.flat_map(of_table).chain(long::FAMILIES.iter().flat_map(of_family)).collect()
}
