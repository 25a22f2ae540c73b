let a = format_description!("[Year]/[month]");
let b = time::macros::format_description!( version=1,"[[[day]" );
let c = format_description!(version = 2, "[month]",);
let d = format_description!(version = 3, "[day]");
let e = format_description::parse_borrowed::<2>(r"\[[hour repr:12  padding:none]");
let f = parse_owned::<1>(r#"a\"b]"#);
let g = parse_owned::<1>(b"\x5b[\x5bday]");
let h = (format_description!["[day]"], parse_borrowed::<1>("[Hour]"), format_description! { version = 2, "x]" });
let i = parse_borrowed ::< 1 > ("\u{5b}Day\u{5d}\n\t\
    é");
let j = now.format("%Y"); // "[Day]" é
let k = parse_strftime_owned("%d");
