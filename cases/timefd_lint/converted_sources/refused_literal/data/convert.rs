let a = parse_owned::<2>("[Day]");
let b = parse_owned::<2>("[dya]");
let c = format_description::parse("x");
