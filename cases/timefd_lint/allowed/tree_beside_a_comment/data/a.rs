use time::macros::format_description;

fn f() {
    let a = format_description!("[day]"); // timefd: allow unknown-name
}
