use time::macros::format_description;

fn f() {
    // timefd: allow unreadable
    let b = format_description!("[year]");
}
