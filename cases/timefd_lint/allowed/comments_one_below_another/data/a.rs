use time::macros::format_description;

fn f() {
    // timefd: allow unknown-name
    // timefd: allow missing-name
    // timefd: 3
    let a = "[yaer][]";
    let b = "[yaer]";
}
