fn main() {
    date.show("[year]-[mnth]");
    show("[mnth]", 1);
    date_text!(date, "%Q1");
    dates::date_text![date, "%Q2"];
    dates::date_text::<Utc>(date, "%Q3");
}
