time::serde::format_description!(version = 2, mod day, Date, "[YEAR]-[month]-[day]");
time::serde::format_description!(version = 1, mod time, Time, "[[[hour]]");
time::serde::format_description!(hour, Time, "[hour]");
