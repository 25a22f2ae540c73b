const FORMAT: &str = "%Q1";
fn face() -> &'static str { "%Q2" }
fn main() {
    let short = "%Q3";
    parse_date_from_str(text, FORMAT);
    parse_date_from_str(text, short);
    parse_date_from_str(text, face());
    for format in ["%F", "%Q4"] {
        parse_date_from_str(text, format);
    }
    parse_date_from_str(text, if is_short { "%Q5" } else { "%F" });
    parse_date_from_str(text, config.format);
}
