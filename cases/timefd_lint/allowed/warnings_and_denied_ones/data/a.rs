use time::macros::format_description;

fn f() {
    let a = format_description!("[day] [day]"); // timefd: allow shown-twice
    let b = format_description!("[hour]:[month]"); // timefd: allow month-for-minute
    let c = format_description!("[day] [day]");
}
