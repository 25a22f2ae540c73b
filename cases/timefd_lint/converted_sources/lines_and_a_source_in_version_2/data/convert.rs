format_description!("[[x]")
