fn main() {
    parse_date_from_str("%Q", "%Y%m%d");
    parse_date_from_str(text, "%Y%m%Q");
    parse_date(text, "%Q");
}
