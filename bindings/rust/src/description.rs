//! A description that was parsed.

use core::fmt;
use core::hash::{Hash, Hasher};

use crate::buffer;
use crate::error::ParseError;
use crate::literal::Literals;
use crate::node::{Item, Members, Nodes};
use crate::parts::Parts;
use crate::sys::{self, COMPOUND, NodeRoom, RawNode};
use crate::tree::{BuildError, Tree};
use crate::version::{Language, Version};

/// A format description, by which dates and times are written and read.
///
/// ```
/// use timefd::{Component, FormatDescription, Node, Version};
///
/// let description = FormatDescription::parse(Version::Three, "[hour]:[minute]")?;
/// let mut items = description.items();
/// assert!(matches!(items.next().unwrap().node(), Node::Component(Component::Hour24 { .. })));
/// assert!(matches!(items.next().unwrap().node(), Node::Literal(":")));
/// assert!(matches!(items.next().unwrap().node(), Node::Component(Component::Minute { .. })));
/// assert!(items.next().is_none());
/// # Ok::<(), timefd::ParseError>(())
/// ```
///
/// It borrows its text; [`into_owned`](Self::into_owned) makes one that you can keep. Two are
/// equal if they have the same nodes, whatever texts and languages they were read from.
#[derive(Clone)]
pub struct FormatDescription<'a> {
    language: Language,
    pub(crate) tree: Tree<'a>,
    max_bytes: usize,
}

impl<'a> FormatDescription<'a> {
    /// Parses a text of a language. `%F` and other letters of strftime that stand for several
    /// components are a compound.
    ///
    /// # Errors
    ///
    /// The fault of the text by the rules of the language, or that memory ran out.
    ///
    /// ```
    /// use timefd::{FormatDescription, Language, Version};
    ///
    /// let text = "[year]-[month]-[day]";
    /// let description = FormatDescription::parse(Version::Three, text)?;
    /// assert_eq!(description.max_bytes_needed(), 11); // the year may have a sign
    ///
    /// let error = FormatDescription::parse(Version::Three, "[day").unwrap_err();
    /// assert_eq!(error.to_string(), "unclosed opening bracket at byte index 0");
    ///
    /// let description = FormatDescription::parse(Language::Strftime, "%d.%m.%y")?;
    /// assert_eq!(description.items().count(), 5);
    /// # Ok::<(), timefd::ParseError>(())
    /// ```
    pub fn parse(language: impl Into<Language>, text: &'a str) -> Result<Self, ParseError> {
        Self::parse_in(language.into(), text)
    }

    /// The same for each type that names a language.
    fn parse_in(language: Language, text: &'a str) -> Result<Self, ParseError> {
        let wanted = wanted_nodes(language, text);
        if wanted > SHORT_NODES || text.len() > SHORT_TEXT {
            return Self::parse_long(language, text, wanted);
        }
        let mut room = NodeRoom::<SHORT_NODES>::new();
        let nodes = room.zeroed(wanted);
        let mut literals = [0; SHORT_LITERALS];
        let answer = sys::read(language.number(), text, nodes, &mut literals);
        expect_accepted(language, text, answer.status)?;
        if !answer.written {
            return Self::parse_long(language, text, answer.nodes);
        }
        let nodes = &mut nodes[..answer.nodes];
        let count = item_nodes(language, nodes);
        let literals = Literals::new(text, &literals[..answer.literals]);
        let tree = Tree::build(&mut nodes[..count], literals);
        Self::of_built(language, tree, answer.bytes)
    }

    /// The same with room on the heap for so many nodes, which are kept where they were written. A text that has more is
    /// read again.
    #[inline(never)]
    fn parse_long(language: Language, text: &'a str, wanted: usize) -> Result<Self, ParseError> {
        let (mut nodes_room, mut literals_room) = (wanted, text.len());
        loop {
            let nodes = sys::zeroed_block(nodes_room);
            let literals = buffer::filled(literals_room, 0);
            let (mut nodes, mut literals) = nodes.zip(literals).ok_or(ParseError::OutOfMemory)?;
            let answer = sys::read(language.number(), text, &mut nodes, &mut literals);
            expect_accepted(language, text, answer.status)?;
            if !answer.written {
                (nodes_room, literals_room) = (answer.nodes, answer.literals);
                continue;
            }
            let count = item_nodes(language, &nodes[..answer.nodes]);
            let nodes = sys::shortened(nodes, count).ok_or(ParseError::OutOfMemory)?;
            let tree = Tree::keep(nodes, Literals::new(text, &literals[..answer.literals]));
            return Self::of_built(language, tree, answer.bytes);
        }
    }

    /// The description of a tree that the library's nodes were built into.
    #[inline]
    fn of_built(
        language: Language,
        tree: Result<Tree<'a>, BuildError>,
        max_bytes: usize,
    ) -> Result<Self, ParseError> {
        match tree {
            Ok(tree) => Ok(Self { language, tree, max_bytes }),
            Err(BuildError::OutOfMemory) => Err(ParseError::OutOfMemory),
            Err(BuildError::Malformed) => unreachable!("the nodes are as the header says"),
        }
    }

    /// The same with a text of its own, which borrows nothing: so you can keep it in a struct, or send it to
    /// another thread. It copies the text if that is borrowed, and parses nothing.
    ///
    /// ```
    /// use timefd::{Date, FormatDescription, Moment, ParseError, Version};
    ///
    /// struct Log {
    ///     date_format: FormatDescription<'static>,
    /// }
    ///
    /// fn log_of(configured: String) -> Result<Log, ParseError> {
    ///     let description = FormatDescription::parse(Version::Three, &configured)?;
    ///     Ok(Log { date_format: description.into_owned() })
    /// }
    ///
    /// let log = log_of("[day].[month].[year]".to_owned())?;
    /// let day = Moment::from(Date::new(2026, 11, 23)?);
    /// assert_eq!(log.date_format.format(&day)?, "23.11.2026");
    /// # Ok::<(), Box<dyn std::error::Error>>(())
    /// ```
    #[must_use]
    pub fn into_owned(self) -> FormatDescription<'static> {
        let Self { language, tree, max_bytes } = self;
        FormatDescription { language, tree: tree.into_owned(), max_bytes }
    }

    /// The description of a tree that was made before.
    pub(crate) const fn of_tree(language: Language, tree: Tree<'a>, max_bytes: usize) -> Self {
        Self { language, tree, max_bytes }
    }

    /// The text that was read.
    #[must_use]
    pub fn text(&self) -> &str {
        &self.tree.text
    }

    /// The text, copied if it is borrowed.
    #[cfg(feature = "serde")]
    pub(crate) fn into_text(self) -> alloc::string::String {
        self.tree.text.into_owned()
    }

    /// The language that it was read in.
    #[must_use]
    pub fn language(&self) -> Language {
        self.language
    }

    /// The version that it was read in. `None` if that is strftime.
    ///
    /// ```
    /// use timefd::{FormatDescription, Language, Version};
    ///
    /// let description = FormatDescription::parse(Version::Two, "[DAY]")?;
    /// assert_eq!(description.version(), Some(Version::Two));
    /// assert_eq!(FormatDescription::parse(Language::Strftime, "%d")?.version(), None);
    /// # Ok::<(), timefd::ParseError>(())
    /// ```
    #[must_use]
    pub fn version(&self) -> Option<Version> {
        match self.language {
            Language::Version(version) => Some(version),
            Language::Strftime => None,
        }
    }

    /// The greatest length of any text that the description is shown as, in bytes, whatever language
    /// it was read in. A buffer of that length is always long enough, and if each component takes
    /// its longest text, all of it is needed. If a `usize` can't count it, it is `usize::MAX`.
    ///
    /// ```
    /// use timefd::{FormatDescription, Language, Version};
    ///
    /// let date = FormatDescription::parse(Language::Strftime, "%F")?;
    /// assert_eq!(date.max_bytes_needed(), 13); // the year may have a sign and six digits
    /// let date = FormatDescription::parse(Version::One, "[year]-[month]-[day]")?;
    /// assert_eq!(date.max_bytes_needed(), 13);
    /// # Ok::<(), timefd::ParseError>(())
    /// ```
    #[must_use]
    pub fn max_bytes_needed(&self) -> usize {
        self.max_bytes
    }

    /// The items in their order.
    pub fn items(&self) -> Members<'_> {
        Members::items(&self.tree)
    }

    /// All nodes, each before its members.
    ///
    /// ```
    /// use timefd::{FormatDescription, Node, Version};
    ///
    /// let description = FormatDescription::parse(Version::Three, "[optional [:[second]]]")?;
    /// let mut nodes = description.nodes().map(|item| item.node());
    /// assert!(matches!(nodes.next(), Some(Node::Optional { format: true, .. })));
    /// assert!(matches!(nodes.next(), Some(Node::Compound(_))));
    /// assert!(matches!(nodes.next(), Some(Node::Literal(":"))));
    /// assert!(matches!(nodes.next(), Some(Node::Component(_))));
    /// assert!(nodes.next().is_none());
    /// # Ok::<(), timefd::ParseError>(())
    /// ```
    pub fn nodes(&self) -> Nodes<'_> {
        Nodes::new(&self.tree)
    }

    /// What a formatter writes, in turn: of alternatives the first, and of a part that may be
    /// skipped nothing if its flag says so.
    ///
    /// ```
    /// use timefd::{FormatDescription, Part, Version};
    ///
    /// let text = "a[optional format:false [b]][first [c] [d]]";
    /// let description = FormatDescription::parse(Version::Three, text)?;
    /// assert!(description.parts().eq([Part::Literal("a"), Part::Literal("c")]));
    /// # Ok::<(), timefd::ParseError>(())
    /// ```
    pub fn parts(&self) -> Parts<'_> {
        Parts::new(&self.tree)
    }
}

impl PartialEq for FormatDescription<'_> {
    fn eq(&self, other: &Self) -> bool {
        self.tree == other.tree
    }
}

impl Eq for FormatDescription<'_> {}

impl Hash for FormatDescription<'_> {
    fn hash<H: Hasher>(&self, state: &mut H) {
        self.tree.hash(state);
    }
}

impl<'d> IntoIterator for &'d FormatDescription<'_> {
    type Item = Item<'d>;
    type IntoIter = Members<'d>;

    fn into_iter(self) -> Members<'d> {
        self.items()
    }
}

impl fmt::Debug for FormatDescription<'_> {
    fn fmt(&self, f: &mut fmt::Formatter<'_>) -> fmt::Result {
        f.debug_tuple("FormatDescription").field(&self.items()).finish()
    }
}

/// Room on the stack for what most texts have, and the length of the longest text that is tried there.
const SHORT_NODES: usize = 24;
const SHORT_LITERALS: usize = 64;
const SHORT_TEXT: usize = 256;

/// For how many nodes there is room when a text is read first. Only letters of strftime that stand for several components
/// may need more: then the text is read twice.
#[inline]
fn wanted_nodes(language: Language, text: &str) -> usize {
    // A component and a literal have six bytes, and nodes that nest others have more.
    let few = text.len() / 3 + 2;
    match language {
        Language::Version(_) if few <= SHORT_NODES => few,
        Language::Strftime if few <= SHORT_NODES / 2 => SHORT_NODES, // Two bytes may stand for many.
        _ => most_nodes(language, text),
    }
}

/// A node for each byte that may begin a component, an escape or a nested description, and for the literal after it; and
/// those of a literal in front and of the whole text.
#[inline(never)]
fn most_nodes(language: Language, text: &str) -> usize {
    let count = match language {
        Language::Version(_) => count(text, |byte| (byte == b'[') | (byte == b'\\')),
        Language::Strftime => count(text, |byte| byte == b'%'),
    };
    2 * count + 2
}

/// How many bytes of a text are like these.
#[inline]
fn count(text: &str, is_like: impl Fn(u8) -> bool) -> usize {
    // The bytes of a chunk are counted by a byte, so many at once.
    let chunks = text.as_bytes().chunks(u8::MAX as usize);
    let count = |chunk: &[u8]| chunk.iter().map(|byte| u8::from(is_like(*byte))).sum::<u8>();
    chunks.map(|chunk| usize::from(count(chunk))).sum()
}

/// The error of a text with this status, unless it is accepted.
#[inline]
fn expect_accepted(language: Language, text: &str, status: u32) -> Result<(), ParseError> {
    match status {
        sys::ACCEPTED => Ok(()),
        _ => Err(ParseError::of(language.number(), text, status)),
    }
}

/// How many of the nodes of a text in a language are its items, or below one. In version 3 the last one may be the whole
/// text: then its members are the items, as in the other languages.
#[inline]
fn item_nodes(language: Language, nodes: &[RawNode]) -> usize {
    match nodes {
        [members @ .., RawNode { what: COMPOUND, .. }]
            if matches!(language, Language::Version(Version::Three)) =>
        {
            members.len()
        }
        nodes => nodes.len(),
    }
}

#[cfg(test)]
#[path = "description_tests.rs"]
mod tests;
