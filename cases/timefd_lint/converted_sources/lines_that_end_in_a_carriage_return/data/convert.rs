let a = format_description!("[Day]");
let b = parse_owned::<2>("]");
