// timefd: allow abc
fn f() {}
// timefd: strftime
const A: &str = "%H:%m";
