let a = format_description::parse("[Day]]")?;
let b = parse_owned( r"[Day]" );
const C: &str = "\x5bDay]"; // timefd: 2
let d = format_description!(day, Date, "[month]");
let e = (parse_borrowed::<1>("[Da\
    y]"), parse_borrowed::<3>("[day]"));
