fn main() {
    show("[mnth]");
}
