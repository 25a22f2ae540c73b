fn main() {
    log::pattern("HH:mm zzz");
}
