fn main() {
    show!(text, "%Q");
    show(text, "%Y-%Q");
    dates::face!["[mnth]"];
    face!("[mnth]");
}
