use time::macros::format_description;

fn f() {
    let a = format_description!(version = 3, "[optional [day]]"); // timefd: allow missing-space
}
