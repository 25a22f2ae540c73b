use time::format_description as description;
use time::format_description::{self, parse, Component};
use time::format_description::parse_borrowed as borrowed;
use time::macros::format_description as described;

fn read() {
    let a = description::parse("[year]-[mnth]")?;
    let b = parse("[dya]")?;
    let c = borrowed::<2>("[hor]")?;
    let d = described!("[minut]");
    let e = described!(version = 2, "[secnd]");
}

mod other {
    fn parse(text: &str) {}

    fn read() {
        parse_all("[mnth]");
    }
}
