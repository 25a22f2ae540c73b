//! The values of modifiers, each with the number that the static library gives it.

/// How a number that is shorter than its field is filled on the left.
#[derive(Debug, Clone, Copy, Default, PartialEq, Eq, Hash)]
#[non_exhaustive]
pub enum Padding {
    /// By spaces.
    Space,
    /// By zeros.
    #[default]
    Zero,
    /// Not at all.
    None,
}

impl Padding {
    pub(crate) fn from_number(number: u8) -> Option<Self> {
        match number {
            1 => Some(Self::Space),
            2 => Some(Self::Zero),
            3 => Some(Self::None),
            _ => None,
        }
    }

    #[cfg(test)]
    pub(crate) fn number(self) -> u8 {
        match self {
            Self::Space => 1,
            Self::Zero => 2,
            Self::None => 3,
        }
    }
}

/// How many digits of a fraction of a second are shown.
#[derive(Debug, Clone, Copy, Default, PartialEq, Eq, Hash)]
#[non_exhaustive]
pub enum SubsecondDigits {
    /// One: tenths of a second.
    One,
    /// Two: hundredths of a second.
    Two,
    /// Three: milliseconds.
    Three,
    /// Four.
    Four,
    /// Five.
    Five,
    /// Six: microseconds.
    Six,
    /// Seven.
    Seven,
    /// Eight.
    Eight,
    /// Nine: nanoseconds.
    Nine,
    /// Nine without the zeros at the end, but at least one.
    #[default]
    OneOrMore,
}

impl SubsecondDigits {
    pub(crate) fn from_number(number: u8) -> Option<Self> {
        match number {
            1 => Some(Self::One),
            2 => Some(Self::Two),
            3 => Some(Self::Three),
            4 => Some(Self::Four),
            5 => Some(Self::Five),
            6 => Some(Self::Six),
            7 => Some(Self::Seven),
            8 => Some(Self::Eight),
            9 => Some(Self::Nine),
            10 => Some(Self::OneOrMore),
            _ => None,
        }
    }

    #[cfg(test)]
    pub(crate) fn number(self) -> u8 {
        match self {
            Self::One => 1,
            Self::Two => 2,
            Self::Three => 3,
            Self::Four => 4,
            Self::Five => 5,
            Self::Six => 6,
            Self::Seven => 7,
            Self::Eight => 8,
            Self::Nine => 9,
            Self::OneOrMore => 10,
        }
    }
}

impl SubsecondDigits {
    /// How many they are, or may be.
    pub(crate) fn at_most(self) -> usize {
        match self {
            Self::One => 1,
            Self::Two => 2,
            Self::Three => 3,
            Self::Four => 4,
            Self::Five => 5,
            Self::Six => 6,
            Self::Seven => 7,
            Self::Eight => 8,
            Self::Nine | Self::OneOrMore => 9,
        }
    }
}

/// What becomes of input after the end.
#[derive(Debug, Clone, Copy, Default, PartialEq, Eq, Hash)]
#[non_exhaustive]
pub enum TrailingInput {
    /// It is refused.
    #[default]
    Prohibit,
    /// It is dropped unread.
    Discard,
}

impl TrailingInput {
    pub(crate) fn from_number(number: u8) -> Option<Self> {
        match number {
            1 => Some(Self::Prohibit),
            2 => Some(Self::Discard),
            _ => None,
        }
    }

    #[cfg(test)]
    pub(crate) fn number(self) -> u8 {
        match self {
            Self::Prohibit => 1,
            Self::Discard => 2,
        }
    }
}

/// A modifier that is true or false.
pub(crate) fn boolean(number: u8) -> Option<bool> {
    match number {
        1 => Some(false),
        2 => Some(true),
        _ => None,
    }
}

/// The number of a modifier that is true or false.
#[cfg(test)]
pub(crate) fn boolean_number(is_true: bool) -> u8 {
    if is_true { 2 } else { 1 }
}
