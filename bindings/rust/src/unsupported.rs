//! What the other library lacks.

use core::error::Error;
use core::fmt;

/// A part of a description that the other library lacks, or of which this crate knows nothing.
#[derive(Debug, Clone, Copy, PartialEq, Eq)]
pub struct Unsupported {
    part: &'static str,
}

impl Unsupported {
    pub(crate) const fn new(part: &'static str) -> Self {
        Self { part }
    }

    /// The name of the part, as a description has it.
    #[must_use]
    pub fn part(&self) -> &'static str {
        self.part
    }
}

impl fmt::Display for Unsupported {
    fn fmt(&self, f: &mut fmt::Formatter<'_>) -> fmt::Result {
        write!(f, "the other library has no {}", self.part)
    }
}

impl Error for Unsupported {}
