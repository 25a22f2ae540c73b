use time::macros::format_description;

fn f() {
    let a = format_description!("[yaer]"); // timefd: allow unknwn-name
    // timefd: allow xyzzy, shown-twice
    let b = format_description!("[year]");
}
