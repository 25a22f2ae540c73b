// timefd: allow abc
fn f() {}
