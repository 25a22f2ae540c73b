//! Descriptions of formats that standards have. They are constants: nothing is parsed when a program
//! runs.
//!
//! ```
//! use timefd::{Moment, presets};
//!
//! let moment: Moment = "2026-11-23T05:06:07+01:00".parse()?;
//! assert_eq!(presets::RFC_2822.format(&moment)?, "Mon, 23 Nov 2026 05:06:07 +0100");
//! assert_eq!(presets::RFC_2822.read("Mon, 23 Nov 2026 05:06:07 +0100")?, moment);
//! # Ok::<(), Box<dyn std::error::Error>>(())
//! ```
//!
//! They write no fraction of a second; a [`Moment`](crate::Moment) that shows itself does.

mod nodes;

use crate::description::FormatDescription;

/// A description that is a constant.
pub type Preset = &'static FormatDescription<'static>;

macro_rules! presets {
    ($($(#[$meta:meta])* $name:ident = $text:expr;)*) => {
        $($(#[$meta])* pub const $name: Preset = &nodes::$name($text);)*

        /// Each preset, by its name.
        #[cfg(test)]
        const ALL: &[(&str, Preset)] = &[$((stringify!($name), $name)),*];
    };
}

presets! {
    /// A timestamp of RFC 3339, as `2026-11-23T05:06:07+01:00`. It also reads a fraction of the
    /// second. It doesn't read `Z` in place of the offset, since no component stands for that:
    /// `"2026-11-23T04:06:07Z".parse::<Moment>()` does.
    RFC_3339 = concat!(
        "[year]-[month]-[day]T[hour]:[minute]:[second][optional format:false [.[subsecond]]]",
        "[offset_hour sign:mandatory]:[offset_minute]",
    );

    /// A date of mail by RFC 2822, as `Mon, 23 Nov 2026 05:06:07 +0100`. It also reads one without
    /// weekday, with one digit of a day, or without seconds.
    RFC_2822 = concat!(
        "[optional [[weekday repr:short], ]][first [[day]] [[day padding:none]]] ",
        "[month repr:short] [year] [hour]:[minute][optional [:[second]]] ",
        "[offset_hour sign:mandatory][offset_minute]",
    );

    /// A date of ISO 8601, as `2026-11-23`.
    ISO_8601_DATE = "[year]-[month]-[day]";

    /// A date of ISO 8601 by the day of the year, as `2026-327`.
    ISO_8601_ORDINAL_DATE = "[year]-[ordinal]";

    /// A date of ISO 8601 by its week and its day of the week, as `2026-W48-1`.
    ISO_8601_WEEK_DATE = "[year base:iso_week]-W[week_number]-[weekday repr:monday]";

    /// A time of day of ISO 8601, as `05:06:07`. It also reads a fraction of the second.
    ISO_8601_TIME = "[hour]:[minute]:[second][optional format:false [.[subsecond]]]";

    /// A date and a time of day of ISO 8601 without an offset, as `2026-11-23T05:06:07`. It also
    /// reads a fraction of the second.
    ISO_8601_DATE_TIME = concat!(
        "[year]-[month]-[day]T[hour]:[minute]:[second]",
        "[optional format:false [.[subsecond]]]",
    );
}

#[cfg(test)]
mod tests {
    use std::format;
    use std::string::String;
    use std::vec::Vec;

    use super::ALL;
    use crate::description::FormatDescription;
    use crate::sys::RawNode;
    use crate::tree::Shape;
    use crate::version::Version;

    fn node(node: &RawNode) -> String {
        let first = [
            node.what,
            node.component,
            node.padding,
            node.sign_is_mandatory,
            node.case_sensitive,
            node.one_indexed,
            node.is_uppercase,
            node.digits,
            node.trailing_input,
            node.format,
        ];
        let RawNode { ignored, bytes, start, count, .. } = node;
        format!("    node({first:?}, {ignored}, {bytes}, {start}, {count}),\n")
    }

    /// The function of a preset in `presets/nodes.rs`, from what the library reads its text as.
    fn source(name: &str, text: &str) -> String {
        let read = FormatDescription::parse(Version::Three, text).expect(text);
        let nodes: String = read.tree.nodes.iter().map(node).collect();
        let bytes = read.max_bytes_needed();
        let call = match &read.tree.shape {
            Shape::Flat { is_ascii } => {
                format!("flat(LANGUAGE, text, {name}_NODES, {is_ascii}, {bytes})")
            }
            Shape::Nested { items, written } => {
                let written: Vec<u32> = written.to_vec();
                format!("nested(LANGUAGE, text, {name}_NODES, {items}, &{written:?}, {bytes})")
            }
        };
        format!(
            "pub(super) const fn {name}(text: &'static str) -> FormatDescription<'static> {{\n    \
             {call}\n}}\n\nconst {name}_NODES: &[Node] = &[\n{nodes}];\n"
        )
    }

    /// White space apart, as `rustfmt` breaks lines.
    fn squeezed(text: &str) -> String {
        text.split_whitespace().collect::<String>().replace(",)", ")").replace(",]", "]")
    }

    #[test]
    fn the_constants_are_what_is_parsed() {
        let file = squeezed(include_str!("presets/nodes.rs"));
        let sources: Vec<_> = ALL.iter().map(|(name, it)| source(name, it.text())).collect();
        let lacking: String =
            sources.into_iter().filter(|it| !file.contains(&squeezed(it))).collect();
        assert!(lacking.is_empty(), "src/presets/nodes.rs wants this:\n{lacking}");
        for (name, preset) in ALL {
            let read = FormatDescription::parse(Version::Three, preset.text()).expect(name);
            assert_eq!((*preset, preset.max_bytes_needed()), (&read, read.max_bytes_needed()));
        }
    }
}
