fn show(now: DateTime<Utc>, style: Style) {
    let day = if style == Style::Short {
        "%m-%d"
    } else if style == named("%!") {
        "%b %J"
    } else {
        "%B %J"
    };
    println!("{}", now.format(day));
    let time = match style {
        Style::Short => "%H:%M",
        Style::Long | Style::Full => { log("%!"); "%H:%J" }
        _ => ("%H %J"),
    };
    println!("{}", now.format(time));
    println!("{}", now.format(if style.is_utc { "%J" } else { "%z" }));
    println!("{}", now.format(match style { Style::Short => "%y", _ => &"%Y %J" }));
}
