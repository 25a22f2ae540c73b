//! The readers of `time` and `chrono`, and that of the crate for Rust, as functions for C: `memory.c` counts what the first two
//! allocate, and `instructions.c` what all execute.

pub mod peers;

use std::hint::black_box;
use timefd::{FormatDescription, Language, Version};

/// # Safety
///
/// These are the pointer and the length of bytes in UTF-8 that nobody writes to for so long.
unsafe fn text<'a>(bytes: *const u8, len: usize) -> &'a str {
    // SAFETY: that is what the caller promises.
    unsafe { std::str::from_utf8_unchecked(std::slice::from_raw_parts(bytes, len)) }
}

/// Reads a text by `time`, and drops what was read. Answers whether it took the text.
///
/// # Safety
///
/// These are the pointer and the length of bytes in UTF-8 that nobody writes to while the call runs.
#[unsafe(no_mangle)]
pub unsafe extern "C" fn peer_time(bytes: *const u8, len: usize) -> bool {
    // SAFETY: that is what the caller promises.
    peers::read_by_time(unsafe { text(bytes, len) }).is_some()
}

/// The same by `chrono`, into a vector.
///
/// # Safety
///
/// These are the pointer and the length of bytes in UTF-8 that nobody writes to while the call runs.
#[unsafe(no_mangle)]
pub unsafe extern "C" fn peer_chrono(bytes: *const u8, len: usize) -> bool {
    // SAFETY: that is what the caller promises.
    peers::collected_from_chrono(unsafe { text(bytes, len) }).is_some()
}

/// Parses a text of the language with this number by the crate for Rust, and drops its tree. Answers whether it was accepted.
///
/// # Safety
///
/// These are the pointer and the length of bytes in UTF-8 that nobody writes to while the call runs.
#[unsafe(no_mangle)]
pub unsafe extern "C" fn parse_in_rust(kind: u32, bytes: *const u8, len: usize) -> bool {
    let language = match kind {
        1 => Language::Version(Version::One),
        2 => Language::Version(Version::Two),
        3 => Language::Version(Version::Three),
        _ => Language::Strftime,
    };
    // SAFETY: that is what the caller promises.
    black_box(FormatDescription::parse(language, unsafe { text(bytes, len) })).is_ok()
}
