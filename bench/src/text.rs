//! The texts that are measured, and how the long ones are made of short parts.

use crate::kind::Kind;

/// From how many bytes on a text counts as long.
pub const LONG: usize = 200;

/// The size of a text of one part, however long the part is.
pub const ONCE: usize = 0;

/// Texts of the same kinds.
pub struct Table {
    pub kinds: &'static [Kind],
    /// The name and the text of each.
    pub rows: &'static [(&'static str, &'static str)],
}

/// Texts of several sizes of the same make.
pub struct Family {
    pub kinds: &'static [Kind],
    pub name: &'static str,
    pub make: Make,
    /// The least numbers of bytes.
    pub sizes: &'static [usize],
}

/// What a long text consists of.
pub enum Make {
    /// One part again and again.
    Repeated(&'static str),
    /// Optional descriptions around one another to this depth, again and again.
    Nested(usize),
}

impl Make {
    fn part(&self) -> String {
        match self {
            Make::Repeated(part) => part.to_string(),
            Make::Nested(depth) => {
                format!("{}[day]{}", "[optional [".repeat(*depth), "]]".repeat(*depth))
            }
        }
    }
}

/// A text that is measured in each of its kinds.
pub struct Text {
    pub kinds: &'static [Kind],
    pub name: String,
    pub text: String,
    /// The name of its family and its size there.
    pub family: Option<(&'static str, usize)>,
}

impl Text {
    pub fn is_long(&self) -> bool {
        self.text.len() >= LONG
    }
}

/// The texts of a table.
pub fn of_table(table: &'static Table) -> impl Iterator<Item = Text> {
    table.rows.iter().map(|(name, text)| Text {
        kinds: table.kinds,
        name: name.to_string(),
        text: text.to_string(),
        family: None,
    })
}

/// The texts of a family, each of which has at least the bytes of its size.
pub fn of_family(family: &'static Family) -> impl Iterator<Item = Text> {
    let part = family.make.part();
    family.sizes.iter().map(move |&size| Text {
        kinds: family.kinds,
        name: format!("{}{}", family.name, size_label(size)),
        text: part.repeat(size.div_ceil(part.len()).max(1)),
        family: Some((family.name, size)),
    })
}

fn size_label(size: usize) -> String {
    match size {
        ONCE => String::new(),
        1000.. => format!(", {} kB", size / 1000),
        _ => format!(", {size} B"),
    }
}
