let a = format_description!(
    "[year]-[mnth]",
);
let b = now.format("%Y-%Q").to_string();
let c = parse_owned::<2>("[day]");
