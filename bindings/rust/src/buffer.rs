//! Buffers whose length a text or the library decides.

use alloc::boxed::Box;
use alloc::string::String;
use alloc::vec::Vec;

/// A buffer of so many values. `None` if there is no memory for it.
pub(crate) fn filled<T: Clone>(len: usize, value: T) -> Option<Vec<T>> {
    let mut buffer = Vec::new();
    buffer.try_reserve_exact(len).ok()?;
    buffer.resize(len, value);
    Some(buffer)
}

/// These values in a buffer of their own, with no room to spare. `None` if there is no memory.
pub(crate) fn copied<T: Copy>(values: &[T]) -> Option<Vec<T>> {
    let mut buffer = Vec::new();
    buffer.try_reserve_exact(values.len()).ok()?;
    buffer.extend_from_slice(values);
    Some(buffer)
}

/// A text of these bytes, with no room to spare. `None` if there is no memory for it.
pub(crate) fn string(bytes: &[u8]) -> Option<String> {
    Some(String::from_utf8(copied(bytes)?).expect("the library writes text"))
}

/// A text of these bytes, which has no room to spare, so that nothing is moved and no memory taken.
pub(crate) fn boxed_text(bytes: Vec<u8>) -> Box<str> {
    debug_assert_eq!(bytes.capacity(), bytes.len());
    String::from_utf8(bytes).expect("the library writes text").into_boxed_str()
}
