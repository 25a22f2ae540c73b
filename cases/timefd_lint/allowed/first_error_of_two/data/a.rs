use time::macros::format_description;

fn f() {
    // timefd: allow unknown-name
    let a = format_description!("[yaer][]");
}
