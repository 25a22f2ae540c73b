//! The static library, called by safe functions. All unsafe code is here; the header `timefd.h`
//! says what the calls are and what a caller keeps to.
//!
//! Why the calls are sound, beside what each says:
//!
//! - A slice's pointer is never null, and its length is at most `isize::MAX`, which is what the
//!   header asks of both.
//! - A `&[u8]` is written by nobody while it is borrowed, and a `&mut` slice of bytes or structs is
//!   set to something, is used by nobody else and overlaps nothing else, as the header asks of
//!   texts and buffers.
//! - No call keeps a pointer, takes a lock or keeps anything for the next one, so that they may
//!   come from any thread.
//! - Each struct is `repr(C)` with the fields of the header in their order, and the library is of
//!   that header's version: each call is made only once `timefd_version` has said so.

use alloc::alloc::{Layout, alloc, alloc_zeroed, realloc};
use alloc::boxed::Box;
use core::mem::MaybeUninit;
use core::ptr::NonNull;
use core::slice;
use core::sync::atomic::{AtomicBool, Ordering};

/// The version of the header that this module is written for.
const VERSION: u32 = 2000;

/// What the library has to answer. One that nothing proved has the highest bit too, and is taken
/// where the build has found that file beside it which says so.
const ANSWERED: u32 = if cfg!(timefd_unproved) { 1 << 31 | VERSION } else { VERSION };

pub(crate) const ACCEPTED: u32 = 0;
pub(crate) const REFUSED: u32 = 1;
pub(crate) const NO_MEMORY: u32 = 3;
pub(crate) const UNSHOWN: u32 = 5;
pub(crate) const OUT_OF_RANGE: u32 = 6;
pub(crate) const NO_CONVERSION: u32 = 7;
pub(crate) const UNREAD: u32 = 9;
pub(crate) const CONTRADICTION: u32 = 10;
pub(crate) const MISSING: u32 = 11;

pub(crate) const LITERAL: u8 = 1;
pub(crate) const COMPONENT: u8 = 2;
pub(crate) const COMPOUND: u8 = 3;
pub(crate) const OPTIONAL: u8 = 4;
pub(crate) const FIRST: u8 = 5;

/// `timefd_node` of the header, which says what each field means.
#[repr(C)]
#[derive(Debug, Clone, Copy, Default)]
pub struct RawNode {
    pub(crate) what: u8,
    pub(crate) component: u8,
    pub(crate) padding: u8,
    pub(crate) sign_is_mandatory: u8,
    pub(crate) case_sensitive: u8,
    pub(crate) one_indexed: u8,
    pub(crate) is_uppercase: u8,
    pub(crate) digits: u8,
    pub(crate) trailing_input: u8,
    pub(crate) format: u8,
    pub(crate) ignored: u16,
    pub(crate) bytes: u32,
    pub(crate) start: usize,
    pub(crate) count: usize,
}

/// Room on the stack for so many nodes. Nothing of it is set until it is borrowed.
pub(crate) struct NodeRoom<const COUNT: usize>([MaybeUninit<RawNode>; COUNT]);

impl<const COUNT: usize> NodeRoom<COUNT> {
    pub(crate) const fn new() -> Self {
        Self([const { MaybeUninit::uninit() }; COUNT])
    }

    /// The first nodes, so many or all that there are, each of them set to 0 by one `memset`.
    #[inline]
    pub(crate) fn zeroed(&mut self, count: usize) -> &mut [RawNode] {
        let front = &mut self.0[..count.min(COUNT)];
        let nodes: *mut RawNode = front.as_mut_ptr().cast();
        // SAFETY: the pointer and the length are those of a slice that is borrowed as long as the
        // answer, all of it is set, each field of a node is an integer, and 0 is a value of it.
        unsafe {
            nodes.write_bytes(0, front.len());
            slice::from_raw_parts_mut(nodes, front.len())
        }
    }
}

/// These nodes in a block of their own. `None` if there is no memory for it. A `Vec` says so too, and
/// takes some 50 instructions more, of 1,000 in which a date is parsed.
pub(crate) fn boxed(nodes: &[RawNode]) -> Option<Box<[RawNode]>> {
    if nodes.is_empty() {
        return Some(Box::default());
    }
    // SAFETY: the layout isn't empty, as the slice isn't.
    let block = unsafe { alloc(Layout::for_value(nodes)) }.cast::<RawNode>();
    let block = NonNull::new(block)?;
    // SAFETY: the block is aligned for nodes, has room for these, and overlaps nothing. Then all of
    // it is set, and the box frees it by the layout that it was taken by.
    unsafe {
        block.copy_from_nonoverlapping(NonNull::from(nodes).cast(), nodes.len());
        Some(Box::from_raw(NonNull::slice_from_raw_parts(block, nodes.len()).as_ptr()))
    }
}

/// So many nodes in a block of their own, at least one, each of them 0. A large block costs nothing until it is written
/// to. `None` if there is no memory for it.
pub(crate) fn zeroed_block(count: usize) -> Option<Box<[RawNode]>> {
    let layout = Layout::array::<RawNode>(count.max(1)).ok()?;
    // SAFETY: the layout isn't empty.
    let block = NonNull::new(unsafe { alloc_zeroed(layout) }.cast::<RawNode>())?;
    let nodes = NonNull::slice_from_raw_parts(block, count.max(1));
    // SAFETY: the block is aligned for nodes, and each byte of it is set: each field of a node is an integer,
    // and 0 is a value of it. The box frees the block by the layout that it was taken by.
    Some(unsafe { Box::from_raw(nodes.as_ptr()) })
}

/// The first nodes of a block, so many and at least one, in the same block without the rest. `None` if the allocator
/// doesn't shorten it.
pub(crate) fn shortened(nodes: Box<[RawNode]>, count: usize) -> Option<Box<[RawNode]>> {
    assert!(0 < count && count <= nodes.len());
    if count == nodes.len() {
        return Some(nodes);
    }
    let layout = Layout::for_value(&nodes[..]);
    let size = Layout::for_value(&nodes[..count]).size();
    let block = Box::into_raw(nodes);
    // SAFETY: the block was taken by this layout, and the new size is smaller and not 0. The nodes that remain
    // keep their values, and the box frees them by the layout of so many. Where nothing is shortened, the block is
    // still the one that was taken.
    unsafe {
        let Some(kept) = NonNull::new(realloc(block.cast(), layout, size).cast::<RawNode>()) else {
            drop(Box::from_raw(block));
            return None;
        };
        Some(Box::from_raw(NonNull::slice_from_raw_parts(kept, count).as_ptr()))
    }
}

/// `timefd_answer` of the header.
#[repr(C)]
#[derive(Debug, Clone, Copy)]
pub(crate) struct Answer {
    pub(crate) status: u32,
    pub(crate) value: usize,
    pub(crate) sentence_len: usize,
    pub(crate) written: usize,
}

/// `timefd_convert_answer` of the header, which says what each field means.
#[repr(C)]
pub(crate) struct ConvertAnswer {
    pub(crate) status: u32,
    pub(crate) reason: u32,
    pub(crate) value: usize,
    pub(crate) written: usize,
    pub(crate) first_year: u32,
    pub(crate) whole_minutes: bool,
}

/// `timefd_fault` of the header, which says what each field means.
#[repr(C)]
pub(crate) struct RawFault {
    pub(crate) code: u32,
    pub(crate) out_of_memory: bool,
    pub(crate) start: usize,
    pub(crate) end: usize,
    pub(crate) nearest_len: usize,
    pub(crate) nearest_written: usize,
}

/// `timefd_diagnosis` of the header.
#[repr(C)]
pub(crate) struct Diagnosis {
    pub(crate) answer: Answer,
    pub(crate) fault: RawFault,
}

/// `timefd_warning` of the header. The bytes that it speaks of are all of the text.
#[repr(C)]
#[derive(Debug, Clone, Copy, Default)]
pub(crate) struct RawWarning {
    pub(crate) code: u32,
    start: usize,
    end: usize,
}

/// No description has more warnings.
pub(crate) const MOST_WARNINGS: usize = 14;

/// `timefd_warnings_answer` of the header.
#[repr(C)]
pub(crate) struct WarningsAnswer {
    pub(crate) status: u32,
    pub(crate) value: usize,
    pub(crate) count: usize,
    pub(crate) written: usize,
}

/// `timefd_read_answer` of the header.
#[repr(C)]
pub(crate) struct ReadAnswer {
    pub(crate) status: u32,
    pub(crate) value: usize,
    pub(crate) nodes: usize,
    pub(crate) literals: usize,
    pub(crate) written: bool,
    pub(crate) bytes: usize,
}

/// `timefd_moment` of the header, which says what each field means.
#[repr(C)]
#[derive(Debug, Clone, Copy, Default)]
pub(crate) struct RawMoment {
    pub(crate) known: u32,
    pub(crate) year: i32,
    pub(crate) nanosecond: u32,
    pub(crate) offset_seconds: i32,
    pub(crate) month: u8,
    pub(crate) day: u8,
    pub(crate) hour: u8,
    pub(crate) minute: u8,
    pub(crate) second: u8,
}

impl RawMoment {
    pub(crate) const HAS_DATE: u32 = 1;
    pub(crate) const HAS_TIME: u32 = 2;
    pub(crate) const HAS_OFFSET: u32 = 4;
}

/// `timefd_format_answer` of the header.
#[repr(C)]
pub(crate) struct FormatAnswer {
    pub(crate) status: u32,
    pub(crate) reason: u32,
    pub(crate) component: u32,
    pub(crate) value: usize,
    pub(crate) written: usize,
}

impl FormatAnswer {
    /// Memory ran out before the library was asked.
    pub(crate) const NO_MEMORY: Self =
        Self { status: NO_MEMORY, reason: 0, component: 0, value: 0, written: 0 };
}

/// `timefd_date_answer` of the header.
#[repr(C)]
pub(crate) struct DateAnswer {
    pub(crate) status: u32,
    pub(crate) reason: u32,
    pub(crate) component: u32,
    pub(crate) part: u32,
    pub(crate) value: usize,
    pub(crate) moment: RawMoment,
}

/// The position of each field, as the header has it.
const _: () = {
    use core::mem::{offset_of, size_of};
    assert!(size_of::<Answer>() == 32 && size_of::<RawNode>() == 32);
    assert!(size_of::<RawFault>() == 40 && size_of::<Diagnosis>() == 72);
    assert!(offset_of!(RawFault, code) == 0 && offset_of!(RawFault, out_of_memory) == 4);
    assert!(offset_of!(RawFault, start) == 8 && offset_of!(RawFault, end) == 16);
    assert!(offset_of!(RawFault, nearest_len) == 24);
    assert!(offset_of!(RawFault, nearest_written) == 32);
    assert!(offset_of!(Diagnosis, answer) == 0 && offset_of!(Diagnosis, fault) == 32);
    assert!(size_of::<RawWarning>() == 24 && offset_of!(RawWarning, code) == 0);
    assert!(offset_of!(RawWarning, start) == 8 && offset_of!(RawWarning, end) == 16);
    assert!(size_of::<WarningsAnswer>() == 32 && offset_of!(WarningsAnswer, status) == 0);
    assert!(offset_of!(WarningsAnswer, value) == 8 && offset_of!(WarningsAnswer, count) == 16);
    assert!(offset_of!(WarningsAnswer, written) == 24);
    assert!(size_of::<ConvertAnswer>() == 32 && offset_of!(ConvertAnswer, status) == 0);
    assert!(offset_of!(ConvertAnswer, reason) == 4 && offset_of!(ConvertAnswer, value) == 8);
    assert!(offset_of!(ConvertAnswer, written) == 16);
    assert!(offset_of!(ConvertAnswer, first_year) == 24);
    assert!(offset_of!(ConvertAnswer, whole_minutes) == 28);
    assert!(size_of::<ReadAnswer>() == 48 && offset_of!(ReadAnswer, written) == 32);
    assert!(offset_of!(ReadAnswer, bytes) == 40);
    assert!(offset_of!(Answer, status) == 0 && offset_of!(ReadAnswer, status) == 0);
    assert!(offset_of!(Answer, value) == 8 && offset_of!(Answer, sentence_len) == 16);
    assert!(offset_of!(Answer, written) == 24 && offset_of!(ReadAnswer, value) == 8);
    assert!(offset_of!(ReadAnswer, nodes) == 16 && offset_of!(ReadAnswer, literals) == 24);
    assert!(offset_of!(RawNode, what) == 0 && offset_of!(RawNode, component) == 1);
    assert!(offset_of!(RawNode, padding) == 2 && offset_of!(RawNode, sign_is_mandatory) == 3);
    assert!(offset_of!(RawNode, case_sensitive) == 4 && offset_of!(RawNode, one_indexed) == 5);
    assert!(offset_of!(RawNode, is_uppercase) == 6 && offset_of!(RawNode, digits) == 7);
    assert!(offset_of!(RawNode, trailing_input) == 8 && offset_of!(RawNode, format) == 9);
    assert!(offset_of!(RawNode, ignored) == 10 && offset_of!(RawNode, bytes) == 12);
    assert!(offset_of!(RawNode, start) == 16 && offset_of!(RawNode, count) == 24);
    assert!(size_of::<RawMoment>() == 24 && size_of::<FormatAnswer>() == 32);
    assert!(offset_of!(RawMoment, known) == 0 && offset_of!(RawMoment, year) == 4);
    assert!(offset_of!(RawMoment, nanosecond) == 8 && offset_of!(RawMoment, offset_seconds) == 12);
    assert!(offset_of!(RawMoment, month) == 16 && offset_of!(RawMoment, day) == 17);
    assert!(offset_of!(RawMoment, hour) == 18 && offset_of!(RawMoment, minute) == 19);
    assert!(offset_of!(RawMoment, second) == 20 && offset_of!(FormatAnswer, status) == 0);
    assert!(offset_of!(FormatAnswer, reason) == 4 && offset_of!(FormatAnswer, component) == 8);
    assert!(offset_of!(FormatAnswer, value) == 16 && offset_of!(FormatAnswer, written) == 24);
    assert!(size_of::<DateAnswer>() == 48 && offset_of!(DateAnswer, status) == 0);
    assert!(offset_of!(DateAnswer, reason) == 4 && offset_of!(DateAnswer, component) == 8);
    assert!(offset_of!(DateAnswer, part) == 12 && offset_of!(DateAnswer, value) == 16);
    assert!(offset_of!(DateAnswer, moment) == 24);
};

unsafe extern "C" {
    safe fn timefd_version() -> u32;
    fn timefd_read(
        kind: u32,
        text: *const u8,
        len: usize,
        nodes: *mut RawNode,
        node_room: usize,
        literals: *mut u8,
        literal_room: usize,
    ) -> ReadAnswer;
    fn timefd_check(
        kind: u32,
        text: *const u8,
        len: usize,
        sentence: *mut u8,
        room: usize,
    ) -> Answer;
    fn timefd_diagnose(
        kind: u32,
        text: *const u8,
        len: usize,
        sentence: *mut u8,
        sentence_room: usize,
        word: *mut u8,
        word_room: usize,
    ) -> Diagnosis;
    fn timefd_warnings(
        kind: u32,
        text: *const u8,
        len: usize,
        warnings: *mut RawWarning,
        room: usize,
    ) -> WarningsAnswer;
    fn timefd_convert(
        from: u32,
        to: u32,
        text: *const u8,
        len: usize,
        buffer: *mut u8,
        room: usize,
    ) -> Answer;
    fn timefd_convert_format(
        dialect: u32,
        format: *const u8,
        len: usize,
        buffer: *mut u8,
        room: usize,
    ) -> ConvertAnswer;
    fn timefd_format(
        kind: u32,
        text: *const u8,
        len: usize,
        moment: *const RawMoment,
        buffer: *mut u8,
        room: usize,
    ) -> FormatAnswer;
    fn timefd_format_nodes(
        nodes: *const RawNode,
        node_count: usize,
        literals: *const u8,
        literal_count: usize,
        moment: *const RawMoment,
        buffer: *mut u8,
        room: usize,
    ) -> FormatAnswer;
    fn timefd_read_date(
        kind: u32,
        text: *const u8,
        len: usize,
        date: *const u8,
        date_len: usize,
    ) -> DateAnswer;
    fn timefd_read_nodes(
        nodes: *const RawNode,
        node_count: usize,
        literals: *const u8,
        literal_count: usize,
        date: *const u8,
        date_len: usize,
    ) -> DateAnswer;
}

/// Whether the library has said that it is of this crate's version. It says so once.
static IS_EXPECTED: AtomicBool = AtomicBool::new(false);

/// Stops a program that was linked with another library.
#[inline(always)]
fn expect_version() {
    if !IS_EXPECTED.load(Ordering::Relaxed) {
        ask_version();
    }
}

#[cold]
#[inline(never)]
fn ask_version() {
    let found = timefd_version();
    assert_eq!(found, ANSWERED, "libtimefd is of another version than this crate");
    IS_EXPECTED.store(true, Ordering::Relaxed);
}

/// What the text is in a language, with its nodes and the bytes of its literals if both buffers
/// have room.
pub(crate) fn read(
    kind: u32,
    text: &str,
    nodes: &mut [RawNode],
    literals: &mut [u8],
) -> ReadAnswer {
    expect_version();
    // SAFETY: the pointers and the lengths are those of three slices that are borrowed for the
    // call, two of them for it alone.
    unsafe {
        timefd_read(
            kind,
            text.as_ptr(),
            text.len(),
            nodes.as_mut_ptr(),
            nodes.len(),
            literals.as_mut_ptr(),
            literals.len(),
        )
    }
}

/// What the text is in a language, with the front of the sentence of its fault.
pub(crate) fn check(kind: u32, text: &str, sentence: &mut [u8]) -> Answer {
    expect_version();
    // SAFETY: the pointers and the lengths are those of two slices that are borrowed for the call,
    // the second for it alone.
    unsafe { timefd_check(kind, text.as_ptr(), text.len(), sentence.as_mut_ptr(), sentence.len()) }
}

/// What the text is in a language, with the front of the sentence of its fault, the nearest word
/// if its buffer has room for it, and what else is reported of the fault.
pub(crate) fn diagnose(kind: u32, text: &str, sentence: &mut [u8], word: &mut [u8]) -> Diagnosis {
    expect_version();
    // SAFETY: the pointers and the lengths are those of three slices that are borrowed for the
    // call, two of them for it alone.
    unsafe {
        timefd_diagnose(
            kind,
            text.as_ptr(),
            text.len(),
            sentence.as_mut_ptr(),
            sentence.len(),
            word.as_mut_ptr(),
            word.len(),
        )
    }
}

/// What is suspect in a text of a language, as far as the buffer has room.
pub(crate) fn warnings(kind: u32, text: &str, warnings: &mut [RawWarning]) -> WarningsAnswer {
    expect_version();
    // SAFETY: as in `check`.
    unsafe {
        timefd_warnings(kind, text.as_ptr(), text.len(), warnings.as_mut_ptr(), warnings.len())
    }
}

/// The text of the second language for a text of the first, if the buffer has room for all of it.
pub(crate) fn convert(from: u32, to: u32, text: &str, buffer: &mut [u8]) -> Answer {
    expect_version();
    // SAFETY: as in `check`.
    unsafe {
        timefd_convert(from, to, text.as_ptr(), text.len(), buffer.as_mut_ptr(), buffer.len())
    }
}

/// The text of version 3 for a format of the dialect, if the buffer has room for all of it.
pub(crate) fn convert_format(dialect: u32, format: &str, buffer: &mut [u8]) -> ConvertAnswer {
    expect_version();
    // SAFETY: as in `check`.
    unsafe {
        timefd_convert_format(
            dialect,
            format.as_ptr(),
            format.len(),
            buffer.as_mut_ptr(),
            buffer.len(),
        )
    }
}

/// What the text writes of the moment, if the buffer has room for all of it.
pub(crate) fn format(kind: u32, text: &str, moment: &RawMoment, buffer: &mut [u8]) -> FormatAnswer {
    expect_version();
    // SAFETY: as in `check`; the moment is borrowed for the call too.
    unsafe {
        timefd_format(kind, text.as_ptr(), text.len(), moment, buffer.as_mut_ptr(), buffer.len())
    }
}

/// What nodes write of the moment, if the buffer has room for all of it.
pub(crate) fn format_nodes(
    nodes: &[RawNode],
    literals: &[u8],
    moment: &RawMoment,
    buffer: &mut [u8],
) -> FormatAnswer {
    expect_version();
    // SAFETY: the pointers and the lengths are those of three slices that are borrowed for the call,
    // the last for it alone; the moment is borrowed for the call too.
    unsafe {
        timefd_format_nodes(
            nodes.as_ptr(),
            nodes.len(),
            literals.as_ptr(),
            literals.len(),
            moment,
            buffer.as_mut_ptr(),
            buffer.len(),
        )
    }
}

/// What a date shows by the text of a description.
pub(crate) fn read_date(kind: u32, text: &str, date: &str) -> DateAnswer {
    expect_version();
    // SAFETY: the pointers and the lengths are those of two slices that are borrowed for the call.
    unsafe { timefd_read_date(kind, text.as_ptr(), text.len(), date.as_ptr(), date.len()) }
}

/// What a date shows by nodes.
pub(crate) fn read_nodes(nodes: &[RawNode], literals: &[u8], date: &str) -> DateAnswer {
    expect_version();
    // SAFETY: the pointers and the lengths are those of three slices that are borrowed for the call.
    unsafe {
        timefd_read_nodes(
            nodes.as_ptr(),
            nodes.len(),
            literals.as_ptr(),
            literals.len(),
            date.as_ptr(),
            date.len(),
        )
    }
}

#[cfg(test)]
#[path = "sys_tests.rs"]
mod tests;
