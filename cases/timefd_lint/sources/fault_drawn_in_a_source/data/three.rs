let a = format_description!(
    "[year]-[mnth]",
);
