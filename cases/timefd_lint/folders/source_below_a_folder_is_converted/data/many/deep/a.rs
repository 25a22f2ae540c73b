let a = parse_borrowed::<1>("[Day]]");
