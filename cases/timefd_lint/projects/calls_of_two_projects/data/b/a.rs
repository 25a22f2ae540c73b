fn main() {
    show("zzz");
}
