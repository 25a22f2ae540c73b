let a = format_description!("[optional [day]]");
