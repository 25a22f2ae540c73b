let a = parse_owned::<3>("[mn\
    th]");
let b = parse_owned::<2>("[dya]");
