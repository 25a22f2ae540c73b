fn main() {
    let _ = format_description!("[hour][optional [:[second]]]");
    let _ = format_description!(version = 2, "[first [[year]] [[month]-[day]]]");
    let _ = parse_owned("[hour][optional [:[second]]]");
    let _ = parse_owned::<2>("[optional [[optional [x]] [first [[day]] [\\[]]]]");
    let _ = parse_owned::<1>("[[[first [a] [[[]]]");
    let _ = format_description!(version = 1, "[day padding:space ][OPTIONAL [\u{e9}]]");
}
