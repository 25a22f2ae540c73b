use time::macros::format_description;

fn f() {
    let a = format_description!("[yaer][]"); // timefd: allow missing-name, unknown-name
    let b = format_description!("[yaer][]"); //timefd:allow missing-name	unknown-name
    let c = format_description!("[yaer][]"); //  timefd:  allow unknown-name,missing-name,
}
