time::serde::format_description!(version = 3, mod day, Date, "[year range:extended]-[month]-[day]");
time::serde::format_description!(version = 3, mod time, Time, "\\[[hour]\\]");
time::serde::format_description!(hour, Time, "[hour]");
