use jiff::fmt::strtime::{self as written, Display};
use time::format_description::{Component, self as fd};
use time::{Date, format_description::{self as described, parse as read}};
use time::format_description::modifier::{self as modifiers};
use time::format_description::{modifier::{self as inner}, Modifier};
use other::{self as others};

fn show(zoned: &Zoned) {
    fd::parse("[mnth]");
    fd::parse("[month]");
    described::parse("[dya]");
    read("[hor]");
    written::format("%F %J", zoned);
    modifiers::parse("[minut]");
    inner::parse("[minut]");
    others::parse("[minut]");
}

fn within() {
    use time::format_description::{self as module};
    module::parse("[secnd]");
}

fn outside() {
    module::parse("[minut]");
}
