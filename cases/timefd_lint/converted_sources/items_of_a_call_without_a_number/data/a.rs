let a = parse_owned("[day][optional [ [year]]]");
