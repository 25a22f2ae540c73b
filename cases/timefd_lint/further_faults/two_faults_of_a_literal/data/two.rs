let a = format_description!(
    "[yaer]\u{2d}[mnth]",
);
