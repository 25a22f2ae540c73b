format_description!(version = 2, "\\[x\\]")
