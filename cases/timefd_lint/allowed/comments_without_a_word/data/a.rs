// timefd:
// timefd: -
/// timefd: strftme
fn f() {}
