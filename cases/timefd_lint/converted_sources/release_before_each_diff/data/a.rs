let a = format_description!("[Year]");
