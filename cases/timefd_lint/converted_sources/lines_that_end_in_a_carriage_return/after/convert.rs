let a = format_description!(version = 3, "[day]");
let b = parse_owned::<3>("\\]");
