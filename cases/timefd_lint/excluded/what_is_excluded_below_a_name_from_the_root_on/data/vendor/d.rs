let a = format_description!("[mnth]");
