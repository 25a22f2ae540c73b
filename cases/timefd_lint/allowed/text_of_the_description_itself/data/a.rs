use time::macros::format_description;

fn f() {
    let a = format_description!("[yaer] // timefd: allow unknown-name");
}
