//! What a description is made of, how many bytes a date that it shows needs, a date, and one read back.

use std::error::Error;

use timefd::{Date, FormatDescription, Moment, Version};

fn main() -> Result<(), Box<dyn Error>> {
    let description = FormatDescription::parse(Version::Three, "[year]-[month]-[day]")?;
    for part in description.parts() {
        println!("{part:?}"); // a literal, or a component with its modifiers
    }
    println!("at most {} bytes", description.max_bytes_needed());

    let day = Moment::from(Date::new(2026, 11, 23)?);
    println!("{}", timefd::format(Version::Three, "[day].[month].[year]", &day)?); // 23.11.2026

    let day = timefd::read(Version::Three, "[day]/[month]/[year]", "23/11/2026")?;
    println!("{}", timefd::format(Version::Three, "[weekday]", &day)?); // Monday
    Ok(())
}
