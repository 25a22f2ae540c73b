use time::macros::format_description;

fn f() {
    let a = format_description!("[yaer]"); let s = "// timefd: allow unknown-name";
    let r = r"
    // timefd: allow unknown-name
    "; let b = format_description!("[yaer]");
    /*
    // timefd: allow unknown-name
    */ let c = format_description!("[yaer]");
}
