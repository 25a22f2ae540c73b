//! The macro of `timefd`, which takes it in by its feature `macros`. It reads a description while a
//! program is compiled, by the library that reads it when a program runs.

#![cfg_attr(timefd_subspan, feature(proc_macro_span))]

extern crate alloc;
extern crate proc_macro;

mod arguments;
mod constants;
mod quoted;
mod refusal;
mod suspect;
mod tokens;

/// Takes files of `timefd` in, which say how a text is read and what is said of a bad one.
macro_rules! shared {
    ($($name:ident: $path:literal;)*) => {
        $(
            #[path = $path]
            #[allow(dead_code, unexpected_cfgs, unreachable_pub)]
            mod $name;
        )*
    };
}

shared! {
    buffer: "../../src/buffer.rs";
    component: "../../src/component.rs";
    content: "../../src/content.rs";
    decode: "../../src/decode.rs";
    description: "../../src/description.rs";
    error: "../../src/error.rs";
    fault: "../../src/fault.rs";
    kept: "../../src/kept.rs";
    links: "../../src/links.rs";
    literal: "../../src/literal.rs";
    modifier: "../../src/modifier.rs";
    node: "../../src/node.rs";
    parts: "../../src/parts.rs";
    sys: "../../src/sys.rs";
    tree: "../../src/tree.rs";
    version: "../../src/version.rs";
    warning: "../../src/warning.rs";
    written: "../../src/written.rs";
}

use proc_macro::TokenStream;

use crate::arguments::Arguments;
use crate::description::FormatDescription;
use crate::error::ParseError;
use crate::refusal::Refusal;

/// What `timefd::format_description!` stands for: its path of that crate, a semicolon, and what it
/// was given.
#[proc_macro]
pub fn format_description(input: TokenStream) -> TokenStream {
    expand(input).unwrap_or_else(Refusal::into_tokens)
}

fn expand(input: TokenStream) -> Result<TokenStream, Refusal> {
    let Arguments { path, language, quoted } = Arguments::of(input)?;
    match FormatDescription::parse(language, &quoted.text) {
        Ok(description) => {
            let mut tokens = suspect::tokens(&description, &quoted);
            tokens.extend(constants::tokens(&description, path, &quoted));
            Ok(tokens::block(tokens))
        }
        Err(ParseError::Invalid(fault)) => Err(Refusal::of_fault(&fault, &quoted)),
        Err(ParseError::OutOfMemory) => Err(Refusal::new(quoted.span(), "out of memory")),
    }
}
