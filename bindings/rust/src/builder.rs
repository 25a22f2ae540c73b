//! Descriptions built part by part.

use alloc::string::String;

use crate::bracket;
use crate::component::Component;
use crate::description::FormatDescription;
use crate::error::ParseError;
use crate::literal::push_escaped;
use crate::version::Version;

/// A description that is built part by part, if a program has parts and not a text.
///
/// ```
/// use timefd::{Component, DescriptionBuilder, Moment, Padding, Time};
///
/// let padding = Padding::Zero;
/// let seconds = DescriptionBuilder::new().literal(":").component(Component::Second { padding });
/// let description = DescriptionBuilder::new()
///     .literal("[")
///     .component(Component::Hour24 { padding })
///     .literal(":")
///     .component(Component::Minute { padding })
///     .optional(true, seconds)
///     .literal("]")
///     .build()?;
///
/// let time = Moment::from(Time::new(5, 6, 7, 0)?);
/// assert_eq!(description.format(&time)?, "[05:06:07]");
/// assert_eq!(description.read("[05:06]")?.to_string(), "05:06:00");
/// assert_eq!(description.text(), r"\[[hour]:[minute][optional [:[second]]]\]");
/// # Ok::<(), Box<dyn std::error::Error>>(())
/// ```
///
/// It keeps the text of version 3 for its parts so far, and [`build`](Self::build) parses that: so
/// what is built is the same as what is read.
#[derive(Debug, Clone, Default, PartialEq, Eq, Hash)]
#[must_use = "it builds nothing until `build` is called"]
pub struct DescriptionBuilder {
    text: String,
}

impl DescriptionBuilder {
    /// No parts.
    pub const fn new() -> Self {
        Self { text: String::new() }
    }

    /// Adds text that is written as it is, brackets and backslashes too.
    pub fn literal(mut self, text: &str) -> Self {
        push_escaped(&mut self.text, text);
        self
    }

    /// Adds a component.
    pub fn component(mut self, component: Component) -> Self {
        self.push(&["[", &bracket::words(component), "]"]);
        self
    }

    /// Adds all parts of another builder, in turn.
    pub fn parts(mut self, others: Self) -> Self {
        self.text.push_str(&others.text);
        self
    }

    /// Adds a part that input may have or lack. A formatter writes it if `format` is true.
    pub fn optional(mut self, format: bool, part: Self) -> Self {
        let name = if format { "[optional [" } else { "[optional format:false [" };
        self.push(&[name, &part.text, "]]"]);
        self
    }

    /// Adds alternatives: a reader takes the first one that fits, and a formatter writes the first
    /// one of all. Without any, `build` answers that an alternative is missing.
    ///
    /// ```
    /// use timefd::{Component, DescriptionBuilder, Padding};
    ///
    /// let day = |padding| DescriptionBuilder::new().component(Component::Day { padding });
    /// let days = [day(Padding::Zero), day(Padding::None)];
    /// let description = DescriptionBuilder::new().first(days).build()?;
    /// assert_eq!(description.text(), "[first [[day]] [[day padding:none]]]");
    /// # Ok::<(), timefd::ParseError>(())
    /// ```
    pub fn first(mut self, alternatives: impl IntoIterator<Item = Self>) -> Self {
        self.text.push_str("[first");
        for alternative in alternatives {
            self.push(&[" [", &alternative.text, "]"]);
        }
        self.text.push(']');
        self
    }

    /// The description of all parts, in version 3. Its text has only the modifiers that it needs.
    ///
    /// # Errors
    ///
    /// Parts are nested more than 127 deep, `first` was given no alternative, or memory ran out. The
    /// index of the fault is one of [`text`](Self::text).
    pub fn build(self) -> Result<FormatDescription<'static>, ParseError> {
        FormatDescription::parse(Version::Three, &self.text).map(FormatDescription::into_owned)
    }

    /// The text of version 3 for the parts so far.
    #[must_use]
    pub fn text(&self) -> &str {
        &self.text
    }

    fn push(&mut self, words: &[&str]) {
        self.text.extend(words.iter().copied());
    }
}
