//! The languages.

/// The language of a text.
#[derive(Clone, Copy, PartialEq, Eq, Debug)]
pub enum Kind {
    One,
    Two,
    Three,
    Strftime,
}

impl Kind {
    pub const EVERY: [Kind; 4] = [Kind::One, Kind::Two, Kind::Three, Kind::Strftime];

    /// The number that the library knows it by.
    pub fn number(self) -> u32 {
        match self {
            Kind::One => 1,
            Kind::Two => 2,
            Kind::Three => 3,
            Kind::Strftime => 4,
        }
    }

    pub fn label(self) -> &'static str {
        match self {
            Kind::One => "version 1",
            Kind::Two => "version 2",
            Kind::Three => "version 3",
            Kind::Strftime => "strftime",
        }
    }
}
