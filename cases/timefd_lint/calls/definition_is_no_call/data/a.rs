impl Date {
    fn show(self, format: &str) -> String {
        self.text(format)
    }
}
fn main() {
    date.show("[day]");
}
