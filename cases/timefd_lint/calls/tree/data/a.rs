fn main() {
    show("[day]");
}
