let a = parse_owned::<3>("[day]");
let b = parse_owned::<2>("[dya]");
let c = format_description::parse("x");
