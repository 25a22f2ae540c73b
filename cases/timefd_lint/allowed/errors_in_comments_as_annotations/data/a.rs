use time::macros::format_description;

fn f() {
    let a = format_description!("[year]日本"); // timefd: allow unknwn-name, xyzzy
    let b = "日本"; // timefd: strftme
    let c = format_description!("[year]");
}
