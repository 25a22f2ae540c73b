fn main() {
    let _ = format_description!("[hour][optional [:[second]]]");
    let _ = parse_owned::<2>("[first [[year]] [[month]]]");
    time::serde::format_description!(version = 2, mod m, Date, "[YEAR]");
    let _ = format_description!(version = 2, "[hour]:[minute][optional [:[second][optional [.[subsecond]]]]]");
    let _ = parse_owned::<1>("[first
        [[[[year]]
        [W[week_number]]
    ] [optional []]");
    let _ = format_description!(version = 2, r"[first [[day] \[a\]] [b\\]]");
}
