//! The calls that are timed: those of the library for C, `parse_borrowed` of the crates in Rattle, and `parse` of the crate for
//! Rust.

use crate::kind::Kind;
use std::hint::black_box;
use timefd::{FormatDescription, Language, Version};

/// A call over a text of some language.
#[derive(Clone, Copy, PartialEq, Eq)]
pub enum Call {
    /// `timefd_read`: the text's nodes are written into a buffer.
    Read,
    /// `parse_borrowed` in Rattle: items, or a description of version 3, which are dropped.
    ParseBorrowed,
    /// `FormatDescription::parse` in Rust: the tree, which is dropped.
    ParseInRust,
    /// `timefd_judge`: what the text holds is counted, and nothing is built.
    Judge,
}

impl Call {
    /// Those that answer a tree come first.
    pub const EVERY: [Call; 4] = [Call::Read, Call::ParseBorrowed, Call::ParseInRust, Call::Judge];

    pub fn label(self) -> &'static str {
        match self {
            Call::Read => "timefd_read",
            Call::ParseBorrowed => "parse_borrowed",
            Call::ParseInRust => "crate's parse",
            Call::Judge => "timefd_judge",
        }
    }

    /// Makes the call. Whether the text was accepted, and all of it written where something is.
    #[inline(always)]
    pub fn accepts(self, kind: Kind, text: &str, room: &mut Room) -> bool {
        match self {
            Call::Read => read(kind, text, room).is_written(),
            Call::ParseBorrowed => parse_borrowed(kind, text),
            Call::ParseInRust => parse_in_rust(kind, text),
            Call::Judge => judge(kind, text).is_accepted(),
        }
    }
}

/// The status of a text that is a description.
const ACCEPTED: u32 = 0;

/// What the library says of a text.
#[repr(C)]
struct Answer {
    status: u32,
    value: usize,
    sentence_len: usize,
    written: usize,
}

impl Answer {
    fn is_accepted(&self) -> bool {
        self.status == ACCEPTED
    }
}

/// What the library says of a text whose nodes it writes.
#[repr(C)]
struct ReadAnswer {
    status: u32,
    value: usize,
    nodes: usize,
    literals: usize,
    written: bool,
    bytes: usize,
}

impl ReadAnswer {
    fn is_written(&self) -> bool {
        self.status == ACCEPTED && self.written
    }
}

/// A node, which nobody looks into here.
#[repr(C, align(8))]
#[derive(Clone, Copy)]
struct Node([u8; 32]);

/// Where the nodes and the literals of texts are written.
pub struct Room {
    nodes: Vec<Node>,
    literals: Vec<u8>,
}

/// How many nodes a byte of a text has at most, and how many bytes of literals: two bytes of strftime stand for several.
const NODES: usize = 8;

impl Room {
    /// Room for all texts of at most so many bytes.
    pub fn new(len: usize) -> Room {
        Room { nodes: vec![Node([0; 32]); NODES * len + 1], literals: vec![0; NODES * len] }
    }
}

unsafe extern "C" {
    fn timefd_judge(kind: u32, text: *const u8, len: usize) -> Answer;

    fn timefd_read(
        kind: u32,
        text: *const u8,
        len: usize,
        nodes: *mut Node,
        node_room: usize,
        literals: *mut u8,
        literal_room: usize,
    ) -> ReadAnswer;

    fn timefd_parse_borrowed(kind: u32, text: *const u8, len: usize) -> bool;
}

#[inline(always)]
fn judge(kind: Kind, text: &str) -> Answer {
    // SAFETY: the pointer and the length are those of one slice, which is borrowed for the call.
    unsafe { timefd_judge(kind.number(), text.as_ptr(), text.len()) }
}

#[inline(always)]
fn read(kind: Kind, text: &str, room: &mut Room) -> ReadAnswer {
    let Room { nodes, literals } = room;
    let (node_room, literal_room) = (nodes.len(), literals.len());
    // SAFETY: each pointer and length are those of one slice, which is borrowed for the call, and `Node` has the size and
    // the alignment of the header's.
    unsafe {
        timefd_read(
            kind.number(),
            text.as_ptr(),
            text.len(),
            nodes.as_mut_ptr(),
            node_room,
            literals.as_mut_ptr(),
            literal_room,
        )
    }
}

#[inline(always)]
fn parse_borrowed(kind: Kind, text: &str) -> bool {
    // SAFETY: the pointer and the length are those of one text in UTF-8, which is borrowed for the call.
    unsafe { timefd_parse_borrowed(kind.number(), text.as_ptr(), text.len()) }
}

#[inline(always)]
fn parse_in_rust(kind: Kind, text: &str) -> bool {
    black_box(FormatDescription::parse(language(kind), text)).is_ok()
}

fn language(kind: Kind) -> Language {
    match kind {
        Kind::One => Language::Version(Version::One),
        Kind::Two => Language::Version(Version::Two),
        Kind::Three => Language::Version(Version::Three),
        Kind::Strftime => Language::Strftime,
    }
}
