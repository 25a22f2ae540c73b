//! The static library, called by safe functions. `../timefd.h` says what each number means.

pub const VERSION_1: u32 = 1;
pub const VERSION_2: u32 = 2;
pub const VERSION_3: u32 = 3;
pub const STRFTIME: u32 = 4;

pub const ACCEPTED: u32 = 0;
pub const REFUSED: u32 = 1;
pub const NOT_UTF8: u32 = 2;
pub const NO_MEMORY: u32 = 3;
pub const UNKNOWN_KIND: u32 = 4;
pub const NO_CONVERSION: u32 = 7;

#[repr(C)]
pub struct Answer {
    pub status: u32,
    pub value: usize,
    pub sentence_len: usize,
    pub written: usize,
}

unsafe extern "C" {
    fn timefd_judge(kind: u32, text: *const u8, len: usize) -> Answer;
    fn timefd_check(
        kind: u32,
        text: *const u8,
        len: usize,
        sentence: *mut u8,
        room: usize,
    ) -> Answer;
    fn timefd_v1_to_v2(text: *const u8, len: usize, buffer: *mut u8, room: usize) -> Answer;
    fn timefd_v2_to_v3(text: *const u8, len: usize, buffer: *mut u8, room: usize) -> Answer;
    fn timefd_convert(
        from: u32,
        to: u32,
        text: *const u8,
        len: usize,
        buffer: *mut u8,
        room: usize,
    ) -> Answer;
}

/// What the bytes are in a language.
pub fn judge(kind: u32, text: &[u8]) -> Answer {
    // SAFETY: the pointer and the length are those of a slice that is borrowed for the call.
    unsafe { timefd_judge(kind, text.as_ptr(), text.len()) }
}

/// The same, with the front of the sentence of the fault in the buffer.
pub fn check(kind: u32, text: &[u8], sentence: &mut [u8]) -> Answer {
    // SAFETY: these are the pointers and lengths of two slices that are borrowed for the call, and the second is
    // borrowed by nobody else.
    unsafe {
        timefd_check(
            kind,
            text.as_ptr(),
            text.len(),
            sentence.as_mut_ptr(),
            sentence.len(),
        )
    }
}

/// The text of version 2 for a text of version 1, in the buffer if that has room for all of it.
pub fn v1_to_v2(text: &[u8], buffer: &mut [u8]) -> Answer {
    // SAFETY: as in `check`.
    unsafe { timefd_v1_to_v2(text.as_ptr(), text.len(), buffer.as_mut_ptr(), buffer.len()) }
}

/// The text of version 3 for a text of version 2, in the buffer if that has room for all of it.
pub fn v2_to_v3(text: &[u8], buffer: &mut [u8]) -> Answer {
    // SAFETY: as in `check`.
    unsafe { timefd_v2_to_v3(text.as_ptr(), text.len(), buffer.as_mut_ptr(), buffer.len()) }
}

/// The text of one language for a text of another, in the buffer if that has room for all of it.
pub fn convert(from: u32, to: u32, text: &[u8], buffer: &mut [u8]) -> Answer {
    // SAFETY: as in `check`.
    unsafe {
        timefd_convert(
            from,
            to,
            text.as_ptr(),
            text.len(),
            buffer.as_mut_ptr(),
            buffer.len(),
        )
    }
}
