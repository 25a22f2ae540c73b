format_description!(version = 3, "[day]"); parse_owned::<3>("[hour repr:12]");
"[day]" // timefd: 3
