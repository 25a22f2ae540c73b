fn main() {
    date.show("[optional[day]]");
}
