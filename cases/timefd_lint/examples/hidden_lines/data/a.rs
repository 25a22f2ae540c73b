/// ```
/// # use time::format_description::parse_borrowed as read;
/// #
/// # fn main() {
/// ## [test]
/// read::<2>("[mnth]");
/// #     read::<2>("[yaer]");
/// # }
/// ```
fn f() {}
