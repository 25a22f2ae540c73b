//! A description that was read, as constants.

use alloc::format;
use alloc::string::{String, ToString as _};
use core::fmt::Write as _;
use proc_macro::{Literal, TokenStream, TokenTree};

use crate::description::FormatDescription;
use crate::quoted::Quoted;
use crate::sys::RawNode;
use crate::tokens::{self, Name};
use crate::tree::Shape;
use crate::version::{Language, Version};

/// The description, borrowed for as long as the program runs.
pub(crate) fn tokens(
    description: &FormatDescription<'_>,
    path: TokenTree,
    quoted: &Quoted,
) -> TokenStream {
    let text = TokenTree::Literal(Literal::string(&quoted.text));
    tokens::of(&source(description)).named(&[(Name::Path, path), (Name::Text, text)]).stream()
}

fn source(description: &FormatDescription<'_>) -> String {
    let language = language(description.language());
    let max_bytes = description.max_bytes_needed();
    let nodes: String = description.tree.nodes.iter().map(node).collect();
    let call = match &description.tree.shape {
        Shape::Flat { is_ascii } => {
            format!("flat({language}, TEXT, &[{nodes}], {is_ascii}, {max_bytes})")
        }
        Shape::Nested { items, written } => {
            let written: String = written.iter().fold(String::new(), |mut list, index| {
                write!(list, "{index},").expect("a text takes what is written");
                list
            });
            format!("nested({language}, TEXT, &[{nodes}], {items}, &[{written}], {max_bytes})")
        }
    };
    format!(
        "static DESCRIPTION: PATH::FormatDescription<'static> = PATH::prepared::{call};
         &DESCRIPTION"
    )
}

fn language(language: Language) -> String {
    let version = match language {
        Language::Strftime => return "PATH::Language::Strftime".to_string(),
        Language::Version(Version::One) => "One",
        Language::Version(Version::Two) => "Two",
        Language::Version(Version::Three) => "Three",
    };
    format!("PATH::Language::Version(PATH::Version::{version})")
}

fn node(node: &RawNode) -> String {
    let first = [
        node.what,
        node.component,
        node.padding,
        node.sign_is_mandatory,
        node.case_sensitive,
        node.one_indexed,
        node.is_uppercase,
        node.digits,
        node.trailing_input,
        node.format,
    ];
    let RawNode { ignored, bytes, start, count, .. } = node;
    format!("PATH::prepared::node({first:?}, {ignored}, {bytes}, {start}, {count}),")
}
