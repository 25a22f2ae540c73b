let a = format_description!(version = 3, "[year range:extended]/[month]");
let b = time::macros::format_description!( version=3,"\\[[day]" );
let c = format_description!(version = 3, "[month]",);
let d = format_description!(version = 3, "[day]");
let e = format_description::parse_borrowed::<3>(r"\[[hour repr:12  padding:none]");
let f = parse_owned::<3>(r#"a\\"b\]"#);
let g = parse_owned::<3>(b"\\[\x5bday]");
let h = (format_description![version = 3, "[day]"], parse_borrowed::<3>("[hour]"), format_description! { version = 3, "x\\]" });
let i = parse_borrowed ::< 3 > ("\u{5b}day\u{5d}\n\t\
    é");
let j = now.format("%Y"); // "[Day]" é
let k = parse_strftime_owned("%d");
