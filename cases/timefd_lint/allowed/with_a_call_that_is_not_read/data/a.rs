use time::format_description::parse;

fn f(s: &str) {
    parse("[yaer]"); // timefd: allow unknown-name
    parse(s);
}
