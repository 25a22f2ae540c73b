use time::macros::format_description;

fn f() {
    /// timefd: allow unknown-name
    let a = format_description!("[yaer]");
    //! timefd: allow unknown-name
    let b = format_description!("[yaer]"); /* timefd: allow unknown-name */
    /* timefd: allow unknown-name */
    let c = format_description!("[yaer]");
}
