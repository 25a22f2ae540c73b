fn main() {
    date.show("[Day]");
}
