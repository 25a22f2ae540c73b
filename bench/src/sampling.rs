//! Interleaved samples of short loops.

use crate::kind::Kind;
use crate::library::{Call, Room};
use crate::peer::Peer;
use crate::text::Text;
use std::hint::black_box;
use std::time::{Duration, Instant};

/// How long one sample takes at least.
const SAMPLE: Duration = Duration::from_micros(20);
/// A row whose work takes longer than this takes part in fewer rounds, lest a few rows take most of the time.
const LONG_WORK: Duration = Duration::from_micros(200);
/// The most rounds from one of its samples to the next.
const MOST_STRIDE: usize = 8;
/// How many rounds there are at least: each row takes part in three.
const LEAST_ROUNDS: usize = 3 * MOST_STRIDE;

/// What is done with a text.
#[derive(Clone, Copy)]
pub enum Work<'a> {
    /// A call reads it in a language.
    Call(Call, Kind),
    /// Another reader reads it.
    Peer(&'a Peer),
    /// Its bytes are copied.
    Copy,
    /// The bytes that are an opening bracket are counted.
    Count,
}

/// Where the work writes to.
pub struct Buffers {
    copied: Vec<u8>,
    room: Room,
}

impl Buffers {
    /// For all texts of at most so many bytes.
    pub fn new(len: usize) -> Buffers {
        Buffers { copied: vec![0; len], room: Room::new(len) }
    }
}

/// A row: some work on a text, and what it took.
pub struct Task<'a> {
    pub text: &'a Text,
    pub work: Work<'a>,
    repetitions: u32,
    /// How many rounds there are from one sample to the next.
    stride: usize,
    samples: Vec<f64>,
}

impl<'a> Task<'a> {
    pub fn new(text: &'a Text, work: Work<'a>) -> Task<'a> {
        Task { text, work, repetitions: 1, stride: 1, samples: Vec::new() }
    }

    /// The median of the samples, in nanoseconds for one time.
    pub fn median(&self) -> f64 {
        let mut samples = self.samples.clone();
        samples.sort_by(f64::total_cmp);
        samples[samples.len() / 2]
    }

    /// Doubles the repetitions until they fill a sample, and sets how often it takes part.
    fn calibrate(&mut self, buffers: &mut Buffers) {
        let long_works = self.time(1, buffers).as_nanos() / LONG_WORK.as_nanos();
        self.stride = (long_works as usize).clamp(1, MOST_STRIDE);
        while self.time(self.repetitions, buffers) < SAMPLE {
            self.repetitions *= 2;
        }
    }

    /// Takes a sample, once what other rows have left in the caches and in the heap is out of the way.
    fn take_sample(&mut self, buffers: &mut Buffers) {
        self.time(1, buffers);
        let time = self.time(self.repetitions, buffers);
        self.samples.push(time.as_nanos() as f64 / f64::from(self.repetitions));
    }

    fn time(&self, repetitions: u32, buffers: &mut Buffers) -> Duration {
        let text = self.text.text.as_str();
        let Buffers { copied, room } = buffers;
        let start = Instant::now();
        match self.work {
            Work::Call(call, kind) => repeat(repetitions, || call.accepts(kind, black_box(text), room)),
            Work::Peer(peer) => repeat(repetitions, || (peer.read)(black_box(text))),
            Work::Copy => repeat(repetitions, || copy(black_box(text), copied)),
            Work::Count => repeat(repetitions, || count(black_box(text))),
        }
        start.elapsed()
    }
}

#[inline(always)]
fn repeat<T>(repetitions: u32, mut work: impl FnMut() -> T) {
    for _ in 0..repetitions {
        black_box(work());
    }
}

fn copy(text: &str, buffer: &mut [u8]) {
    buffer[..text.len()].copy_from_slice(text.as_bytes());
    black_box(buffer);
}

/// In parts whose counts fit a byte each, so that the compiler counts many bytes at once.
fn count(text: &str) -> usize {
    let parts = text.as_bytes().chunks(128);
    let counts = parts.map(|part| part.iter().map(|&byte| u8::from(byte == b'[')).sum::<u8>());
    counts.map(usize::from).sum()
}

/// Samples the rows in turn, again and again for so long, and answers how often.
pub fn sample(tasks: &mut [Task], budget: Duration) -> usize {
    let longest = tasks.iter().map(|task| task.text.text.len()).max();
    let mut buffers = Buffers::new(longest.unwrap_or(0));
    for task in tasks.iter_mut() {
        task.calibrate(&mut buffers);
    }
    let start = Instant::now();
    let mut rounds = 0;
    while rounds < LEAST_ROUNDS || start.elapsed() < budget {
        for task in tasks.iter_mut().filter(|task| rounds % task.stride == 0) {
            task.take_sample(&mut buffers);
        }
        rounds += 1;
    }
    rounds
}
