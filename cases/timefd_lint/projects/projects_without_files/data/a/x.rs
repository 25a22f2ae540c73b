let a = parse_borrowed::<3>("[optional[day]]");
