use dates::{DateBased as Based, parse_date as read};
fn main() {
    read(text, "%Q");
    Based::new("[mnth]");
}
