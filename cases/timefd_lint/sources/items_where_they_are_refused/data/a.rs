fn main() {
    let _ = format_description::parse("[hour][optional [:[second]]]");
    let _ = parse_borrowed::<2>("[first [[year]] [[day]]]");
    let _ = ["[optional [x]]"]; // timefd: 1
    let _ = parse_owned("[optional format:false [x]]");
    let _ = format_description!("[optional]");
    let _ = format_description!("[first [[year]] [[mnth]]][optional [x]]");
    let _ = parse_owned::<2>("[mnth][optional [x]]");
    let _ = parse_owned::<2>("[optional [x]][optional [[dya]]]");
}
