let c = parse_owned::<2>("[day]");
