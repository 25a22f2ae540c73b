fn show() {
    template.format("100% sure");
    table.format("%5.2f");
    table.format("%i items");
    table.format("%.2f");
    log.format("json");
    json.parse_borrowed("[1,2]");
    json.parse_owned("[1,2]");
    parse("[1,2]");
    now.format("%Y %5.2f");
}
