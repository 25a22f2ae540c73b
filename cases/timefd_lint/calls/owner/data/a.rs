fn main() {
    DateBased::new("[mnth]");
    dates::DateBased::new("[mnth]");
    TimeBased::new("[mnth]");
    new("[mnth]");
}
