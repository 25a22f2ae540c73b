let a = format_description!(version = 2, "[year]\\]-\\[[month][optional [ \\[ [hour][optional [:[minute]]]]]");
let b = parse_owned::<2>("[first [a\\\\b] [[day]]]");
let c = parse_owned::<2>("[optional [[year]]]");
