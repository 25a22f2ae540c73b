fn main() {
    NaiveDate::parse_from_str(text, "[mnth]");
    NaiveDate::parse_and_remainder(text, "%Q");
}
