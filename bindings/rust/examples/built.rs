//! A description that is put together part by part.

use std::error::Error;

use timefd::{Component, Date, DescriptionBuilder, Moment, Padding};

fn main() -> Result<(), Box<dyn Error>> {
    let padding = Padding::None;
    let description = DescriptionBuilder::new()
        .literal("[")
        .component(Component::Day { padding })
        .literal(". ")
        .component(Component::MonthLong { case_sensitive: true })
        .literal("]")
        .build()?;

    let day = Moment::from(Date::new(2026, 11, 3)?);
    println!("{}", description.format(&day)?); // [3. November]
    println!("{}", description.text()); // \[[day padding:none]. [month repr:long]\]
    Ok(())
}
