//! The calls of `examples/timefd.h` that write a moment, on a buffer that the caller has.

// For what it links.
use timefd as _;

/// Version 3.
const KIND: u32 = 3;

const ACCEPTED: u32 = 0;

/// `timefd_moment`, with a date, a time and an offset.
#[repr(C)]
struct Moment {
    known: u32,
    year: i32,
    nanosecond: u32,
    offset_seconds: i32,
    month: u8,
    day: u8,
    hour: u8,
    minute: u8,
    second: u8,
}

const MOMENT: Moment = Moment {
    known: 7,
    year: 2026,
    nanosecond: 12_345_678,
    offset_seconds: 3600,
    month: 11,
    day: 23,
    hour: 5,
    minute: 36,
    second: 7,
};

#[repr(C)]
struct FormatAnswer {
    status: u32,
    reason: u32,
    component: u32,
    value: usize,
    written: usize,
}

impl FormatAnswer {
    /// How many bytes were written.
    fn written(&self) -> usize {
        assert_eq!(self.status, ACCEPTED);
        self.written
    }
}

/// `timefd_node`, which nobody looks into here.
#[repr(C, align(8))]
#[derive(Clone, Copy)]
struct Node([u8; 32]);

#[repr(C)]
struct ReadAnswer {
    status: u32,
    value: usize,
    nodes: usize,
    literals: usize,
    written: bool,
    bytes: usize,
}

/// `timefd_date_answer`.
#[repr(C)]
struct DateAnswer {
    status: u32,
    reason: u32,
    component: u32,
    part: u32,
    value: usize,
    moment: Moment,
}

unsafe extern "C" {
    fn timefd_format(
        kind: u32,
        text: *const u8,
        len: usize,
        moment: *const Moment,
        buffer: *mut u8,
        room: usize,
    ) -> FormatAnswer;
    fn timefd_read(
        kind: u32,
        text: *const u8,
        len: usize,
        nodes: *mut Node,
        node_room: usize,
        literals: *mut u8,
        literal_room: usize,
    ) -> ReadAnswer;
    fn timefd_format_nodes(
        nodes: *const Node,
        node_count: usize,
        literals: *const u8,
        literal_count: usize,
        moment: *const Moment,
        buffer: *mut u8,
        room: usize,
    ) -> FormatAnswer;
    fn timefd_read_nodes(
        nodes: *const Node,
        node_count: usize,
        literals: *const u8,
        literal_count: usize,
        date: *const u8,
        date_len: usize,
    ) -> DateAnswer;
}

/// Writes the moment by the text to the front of the buffer, and answers how many bytes these are.
pub fn format(text: &str, buffer: &mut [u8]) -> usize {
    // SAFETY: both are as long as is said, and neither is touched while the call runs.
    let answer = unsafe {
        let (out, room) = (buffer.as_mut_ptr(), buffer.len());
        timefd_format(KIND, text.as_ptr(), text.len(), &MOMENT, out, room)
    };
    answer.written()
}

/// What a text was read as.
pub struct Nodes {
    nodes: Vec<Node>,
    literals: Vec<u8>,
}

impl Nodes {
    /// Reads the text.
    pub fn read(text: &str) -> Nodes {
        // No text that is read here has more nodes than bytes.
        let (mut nodes, mut literals) = (vec![Node([0; 32]); text.len()], vec![0; text.len()]);
        // SAFETY: the three are as long as is said, `Node` is as large as the header's, and none of them is touched
        // while the call runs.
        let answer = unsafe {
            let (places, bytes) = (nodes.as_mut_ptr(), literals.as_mut_ptr());
            timefd_read(KIND, text.as_ptr(), text.len(), places, text.len(), bytes, text.len())
        };
        assert!(answer.status == ACCEPTED && answer.written);
        nodes.truncate(answer.nodes);
        literals.truncate(answer.literals);
        Nodes { nodes, literals }
    }

    /// Writes the moment to the front of the buffer, and answers how many bytes these are.
    pub fn format(&self, buffer: &mut [u8]) -> usize {
        let Nodes { nodes, literals } = self;
        // SAFETY: the three are as long as is said, and none of them is touched while the call runs.
        let answer = unsafe {
            let (places, count, out) = (nodes.as_ptr(), nodes.len(), buffer.as_mut_ptr());
            timefd_format_nodes(
                places,
                count,
                literals.as_ptr(),
                literals.len(),
                &MOMENT,
                out,
                buffer.len(),
            )
        };
        answer.written()
    }

    /// Reads a date, and answers its year.
    pub fn year_of(&self, date: &str) -> i32 {
        let Nodes { nodes, literals } = self;
        // SAFETY: the three are as long as is said, and nobody writes to them while the call runs.
        let answer = unsafe {
            timefd_read_nodes(
                nodes.as_ptr(),
                nodes.len(),
                literals.as_ptr(),
                literals.len(),
                date.as_ptr(),
                date.len(),
            )
        };
        assert!(answer.status == ACCEPTED && answer.value == 0);
        answer.moment.year
    }
}
