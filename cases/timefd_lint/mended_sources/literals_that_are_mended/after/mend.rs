let a = format_description!(version = 3, "[optional [day]]\\]");
let b = parse_owned::<3>(r#"[first [a]]"#);
let c = parse_borrowed::<3>("\u{5b}year\x5d\n[optional \
    [day]]");
let d = now.format("%v").to_string(); // "[optional[day]]"
