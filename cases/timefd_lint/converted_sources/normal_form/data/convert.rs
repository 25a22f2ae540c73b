format_description!("[ day padding:zero ]"); parse_owned::<3>("[ hour  repr:12 ]");
"[ day ]" // timefd: 3
