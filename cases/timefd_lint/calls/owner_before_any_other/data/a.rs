fn main() {
    zone::new("[mnth]");
    Time::new("[mnth] %Q");
}
