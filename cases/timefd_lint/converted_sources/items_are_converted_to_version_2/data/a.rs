let a = format_description!("[year]]-[[[month][optional [ [[ [hour][optional [:[minute]]]]]");
let b = parse_owned::<1>("[first [a\\b] [[day]]]");
let c = parse_owned::<2>("[optional [[year]]]");
