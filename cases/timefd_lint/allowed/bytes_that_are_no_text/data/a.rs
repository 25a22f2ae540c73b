fn f() {
    // timefd: 3
    let a = b"\xff"; // timefd: allow not-text
    // timefd: 3
    let a = b"\xff";
}
