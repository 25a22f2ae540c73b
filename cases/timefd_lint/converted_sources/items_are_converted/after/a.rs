fn main() {
    let _ = format_description!(version = 3, "[hour][optional [:[second]]]");
    let _ = parse_owned::<3>("[first [[year range:extended]] [[month]]]");
    time::serde::format_description!(version = 3, mod m, Date, "[year range:extended]");
    let _ = format_description!(version = 3, "[hour]:[minute][optional [:[second][optional [.[subsecond]]]]]");
    let _ = parse_owned::<3>("[first
        [\\[[year range:extended]]
        [W[week_number]]
    ] [optional []]");
    let _ = format_description!(version = 3, r"[first [[day] \[a\]] [b\\]]");
}
