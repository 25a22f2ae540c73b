//! The macro of descriptions.

/// A description that is parsed while the program is compiled: a `&'static FormatDescription<'static>`
/// that is made of constants, so that nothing is parsed when the program runs.
///
/// ```
/// use timefd::{Date, FormatDescription, Moment, format_description};
///
/// static FORMAT: &FormatDescription<'static> = format_description!("[day].[month].[year]");
///
/// let day = Moment::from(Date::new(2026, 11, 23)?);
/// assert_eq!(FORMAT.format(&day)?, "23.11.2026");
/// # Ok::<(), Box<dyn std::error::Error>>(())
/// ```
///
/// Its language is version 3, or the one that is named before the text:
///
/// ```
/// use timefd::format_description;
///
/// let day = format_description!(strftime, "%d.%m.%Y").read("23.11.2026")?;
/// assert_eq!(format_description!(version = 1, "[[[YEAR]]").format(&day)?, "[2026]");
/// # Ok::<(), Box<dyn std::error::Error>>(())
/// ```
///
/// A bad text is an error of the compiler, which says what is wrong, where in the text, and which
/// allowed word is the nearest. A compiler that marks places inside a literal marks the
/// bytes at fault; others mark the literal, and the message has the text with marks below it:
///
/// ```compile_fail
/// # use timefd::format_description;
/// format_description!("[year]-[mnth]");
/// ```
///
/// ```text
/// error: invalid component name `mnth` at byte index 8
///        [year]-[mnth]
///                ^^^^ the nearest word is `month`
///  --> src/main.rs:3:21
///   |
/// 3 | format_description!("[year]-[mnth]");
///   |                     ^^^^^^^^^^^^^^^
/// ```
///
/// What [`warnings`](crate::FormatDescription::warnings) finds suspect in a good text is a warning of
/// the compiler, except that the text may leave a date open, since not every description is for
/// reading. The lint is `deprecated`, because macros have no other: `#[allow(deprecated)]` at the
/// statement turns it off.
#[macro_export]
macro_rules! format_description {
    ($($argument:tt)*) => { $crate::prepared::format_description!($crate; $($argument)*) };
}
