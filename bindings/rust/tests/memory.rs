//! Memory: each allocation of each call refused in turn, those of the library and those of this
//! crate; and how much a call holds at most.

use std::alloc::{GlobalAlloc, Layout, System};
use std::cell::Cell;
use std::ffi::c_void;
use std::ptr;

use timefd::{FormatDescription, Language, ParseError, Version, v1_to_v2, v2_to_v3};

/// What is counted of the thread that is looked at.
#[derive(Clone, Copy)]
struct Count {
    is_on: bool,
    /// How many allocations were asked for so far, and how many of them by the crate itself.
    asked: usize,
    own: usize,
    /// Which of them is refused, counted from 1, or 0.
    refused: usize,
    /// How many bytes are held, and how many were held at most.
    held: usize,
    most: usize,
}

const NOTHING: Count = Count { is_on: false, asked: 0, own: 0, refused: 0, held: 0, most: 0 };

thread_local! {
    static COUNT: Cell<Count> = const { Cell::new(NOTHING) };
}

/// Whether an allocation is granted that takes `new` bytes in place of `old`.
fn is_granted(old: usize, new: usize) -> bool {
    let mut count = COUNT.get();
    if count.is_on {
        count.asked += 1;
        if count.asked == count.refused {
            COUNT.set(count);
            return false;
        }
        count.held = (count.held + new).saturating_sub(old);
        count.most = count.most.max(count.held);
        COUNT.set(count);
    }
    true
}

/// The same of an allocation of the crate.
fn is_granted_here(old: usize, new: usize) -> bool {
    let count = COUNT.get();
    COUNT.set(Count { own: count.own + 1, ..count });
    is_granted(old, new)
}

fn freed(bytes: usize) {
    let mut count = COUNT.get();
    if count.is_on {
        count.held = count.held.saturating_sub(bytes);
        COUNT.set(count);
    }
}

struct Counting;

#[global_allocator]
static ALLOCATOR: Counting = Counting;

// SAFETY: each call is the system allocator's, or refuses.
unsafe impl GlobalAlloc for Counting {
    unsafe fn alloc(&self, layout: Layout) -> *mut u8 {
        if is_granted_here(0, layout.size()) {
            // SAFETY: the caller keeps to what `alloc` asks for.
            unsafe { System.alloc(layout) }
        } else {
            ptr::null_mut()
        }
    }

    unsafe fn dealloc(&self, block: *mut u8, layout: Layout) {
        freed(layout.size());
        // SAFETY: the caller keeps to what `dealloc` asks for.
        unsafe { System.dealloc(block, layout) }
    }

    unsafe fn realloc(&self, block: *mut u8, layout: Layout, size: usize) -> *mut u8 {
        if is_granted_here(layout.size(), size) {
            // SAFETY: the caller keeps to what `realloc` asks for.
            unsafe { System.realloc(block, layout, size) }
        } else {
            ptr::null_mut()
        }
    }
}

/// What the library's calls for memory come to: these take the place of those of `liblibc_c.a`.
#[repr(C)]
struct Tried {
    is_granted: bool,
    block: *mut c_void,
}

/// A block keeps its own length in front, so that it can be freed.
const FRONT: usize = 16;

fn with_front(len: usize) -> Layout {
    Layout::from_size_align(len + FRONT, FRONT).expect("a length that the library asks for")
}

#[unsafe(no_mangle)]
extern "C" fn rattle_alloc(len: usize, align: usize) -> Tried {
    assert!(align <= FRONT);
    let none = Tried { is_granted: false, block: ptr::dangling_mut::<u128>().cast() };
    if !is_granted(0, len) {
        return none;
    }
    // SAFETY: the layout isn't empty, and there is room for a length in front.
    unsafe {
        let block = System.alloc(with_front(len));
        assert!(!block.is_null(), "the machine has no memory");
        block.cast::<usize>().write(len);
        Tried { is_granted: true, block: block.add(FRONT).cast() }
    }
}

#[unsafe(no_mangle)]
unsafe extern "C" fn rattle_realloc(
    block: *mut c_void,
    _kept: usize,
    len: usize,
    align: usize,
) -> Tried {
    assert!(align <= FRONT);
    // SAFETY: the library hands in a block that `rattle_alloc` or this function gave it.
    unsafe {
        let front = block.cast::<u8>().sub(FRONT);
        let old = front.cast::<usize>().read();
        if !is_granted(old, len) {
            return Tried { is_granted: false, block };
        }
        let moved = System.realloc(front, with_front(old), len + FRONT);
        assert!(!moved.is_null(), "the machine has no memory");
        moved.cast::<usize>().write(len);
        Tried { is_granted: true, block: moved.add(FRONT).cast() }
    }
}

#[unsafe(no_mangle)]
unsafe extern "C" fn rattle_dealloc(block: *mut c_void) {
    // SAFETY: the library hands in a block that one of the two functions above gave it.
    unsafe {
        let front = block.cast::<u8>().sub(FRONT);
        let len = front.cast::<usize>().read();
        freed(len);
        System.dealloc(front, with_front(len));
    }
}

/// Runs a call with its allocation of this number refused, none for 0; and answers what was counted.
fn counted<T>(refused: usize, call: impl FnOnce() -> T) -> (T, Count) {
    COUNT.set(Count { is_on: true, refused, ..NOTHING });
    let answer = call();
    let count = COUNT.replace(NOTHING);
    (answer, count)
}

/// Refuses each allocation of a call in turn: the call answers as ever, or that memory ran out.
fn refuse_each<'a, T: PartialEq + std::fmt::Debug>(
    text: &'a str,
    call: impl Fn(&'a str) -> Result<T, ParseError>,
) -> usize {
    let (ample, _) = counted(0, || call(text));
    assert_ne!(ample.as_ref().err(), Some(&ParseError::OutOfMemory), "{text:?} with ample memory");
    for number in 1.. {
        let (answer, count) = counted(number, || call(text));
        if count.asked < number {
            assert_eq!(answer, ample, "{text:?}");
            return number - 1;
        }
        let is_right = answer == ample || answer.as_ref().err() == Some(&ParseError::OutOfMemory);
        assert!(is_right, "{text:?} without allocation {number}: {answer:?}");
    }
    unreachable!("a call asks for memory a number of times")
}

const TEXTS: &[&str] = &[
    "",
    "[year]-[month]-[day]",
    "[day]",
    "[day].[month].[year]",
    "[hour]:[minute]",
    "[[[day]]\\",
    "a]b",
    "[YEAR]]",
    "[foo]",
    "[day [x]]",
    "[optional [[first [a] [[day]]]]]",
    "[first [a] [[mnth of a name that is longer than others, so that its sentence is long too: more than a hundred and twenty-eight bytes]]]",
    "%c and %Y-%m-%d",
    "%Q",
];

#[test]
fn each_allocation_refused() {
    let mut texts: Vec<String> = TEXTS.iter().map(|text| (*text).to_owned()).collect();
    texts.push("[day] ".repeat(100));
    texts.push("]".repeat(400));
    texts.push("[optional [".repeat(30) + &"]]".repeat(30));
    texts.push("%d ".repeat(100));
    let mut refused = 0;
    for text in &texts {
        for version in [Version::One, Version::Two, Version::Three] {
            refused += refuse_each(text, |text| FormatDescription::parse(version, text));
        }
        refused += refuse_each(text, parse_strftime);
        refused += refuse_each(text, v1_to_v2);
        refused += refuse_each(text, v2_to_v3);
    }
    assert!(refused > 100, "only {refused} allocations were refused");
}

fn parse_strftime(text: &str) -> Result<FormatDescription<'_>, ParseError> {
    FormatDescription::parse(Language::Strftime, text)
}

/// A description is one block of its nodes, and another one where it has nodes that nest others. A
/// single node takes no block.
#[test]
fn what_a_description_takes() {
    const NODE: usize = 32;
    for text in TEXTS {
        for version in [Version::One, Version::Two, Version::Three] {
            let (answer, count) = counted(0, || FormatDescription::parse(version, text));
            let Ok(description) = answer else { continue };
            let nodes = description.nodes().len();
            let is_flat = nodes == description.items().len();
            assert!(count.own <= if is_flat { 1 } else { 2 }, "{text:?} took {} blocks", count.own);
            let indices = if is_flat { 0 } else { description.parts().len() * size_of::<u32>() };
            let kept = if nodes == 1 { 0 } else { nodes };
            assert_eq!(count.held, kept * NODE + indices, "{text:?}");
        }
    }
}

#[test]
fn what_a_long_literal_holds() {
    let text = "x".repeat(1 << 20);
    for version in [Version::One, Version::Two, Version::Three] {
        let (answer, count) = counted(0, || FormatDescription::parse(version, &text));
        assert_eq!(answer.unwrap().items().count(), 1);
        // Its literal once, and room for a few nodes beside it.
        assert!(count.most < text.len() + 65_536, "{version:?} held {} bytes", count.most);
    }
}

/// Expects that a call over a long text is accepted with the memory there is, asks for few blocks
/// and holds at most so many bytes for each byte of the text.
fn expect_ample<'a, T>(
    text: &'a str,
    bytes: usize,
    call: impl Fn(&'a str) -> Result<T, ParseError>,
) {
    let front = &text[..text.len().min(20)];
    let (answer, count) = counted(0, || call(text));
    assert!(answer.is_ok(), "{front}..: {:?}", answer.err());
    assert!(count.asked < 64, "{front}..: {} blocks", count.asked);
    assert!(count.most < bytes * text.len(), "{front}..: {} bytes of {}", count.most, text.len());
}

#[test]
fn long_texts_have_ample_memory() {
    const BYTES: usize = 70;
    let pieces = ["[day]-".repeat(35_000), "[day]".repeat(100_000), "[day]-".repeat(100_000)];
    for text in &pieces {
        for version in [Version::One, Version::Two, Version::Three] {
            expect_ample(text, BYTES, |text| FormatDescription::parse(version, text));
        }
        expect_ample(text, BYTES, v1_to_v2);
        expect_ample(text, BYTES, v2_to_v3);
    }
    for text in ["%d-".repeat(35_000), "%d-".repeat(100_000)] {
        expect_ample(&text, BYTES, parse_strftime);
    }
    for count in [300, 100_000] {
        let text = "[optional [a]]".repeat(count);
        expect_ample(&text, BYTES, |text| FormatDescription::parse(Version::Three, text));
    }
    let text = "x".repeat(20_000_000);
    expect_ample(&text, 3, parse_strftime);
    expect_ample(&text, 3, v1_to_v2);
    expect_ample(&text, 3, v2_to_v3);
}
