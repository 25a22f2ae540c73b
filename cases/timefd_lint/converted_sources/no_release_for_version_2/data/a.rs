let a = format_description!("[day]");
