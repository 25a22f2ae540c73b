//! What the macro is given.

use alloc::string::ToString as _;
use proc_macro::{Delimiter, Span, TokenStream, TokenTree, token_stream};

use crate::quoted::Quoted;
use crate::refusal::Refusal;
use crate::version::{Language, Version};

/// The arguments of the macro.
pub(crate) struct Arguments {
    /// How the crate is called there.
    pub(crate) path: TokenTree,
    pub(crate) language: Language,
    pub(crate) quoted: Quoted,
}

/// What is to be written.
const USAGE: &str = "expected a string literal, or `version = 1`, `version = 2`, `version = 3` or \
                     `strftime` with a comma before it";

impl Arguments {
    /// The path of the crate with a semicolon, a language with a comma if there is one, and the text.
    pub(crate) fn of(input: TokenStream) -> Result<Self, Refusal> {
        let mut rest = input.into_iter();
        let path = rest.next().ok_or_else(|| unexpected(None))?;
        expect(&mut rest, ';')?;
        let (language, text) = match rest.next() {
            Some(TokenTree::Ident(word)) => {
                let language = language(&TokenTree::Ident(word), &mut rest)?;
                expect(&mut rest, ',')?;
                (language, rest.next())
            }
            text => (Version::Three.into(), text),
        };
        let quoted = quoted(text)?;
        match rest.next() {
            None => {}
            Some(TokenTree::Punct(comma)) if comma.as_char() == ',' => {
                rest.next().map_or(Ok(()), |token| Err(unexpected(Some(token))))?;
            }
            token => return Err(unexpected(token)),
        }
        Ok(Self { path, language, quoted })
    }
}

/// The language that a word begins.
fn language(word: &TokenTree, rest: &mut token_stream::IntoIter) -> Result<Language, Refusal> {
    match word.to_string().as_str() {
        "strftime" => Ok(Language::Strftime),
        "version" => {
            expect(rest, '=')?;
            let number = rest.next().ok_or_else(|| unexpected(None))?;
            let version: Result<Version, _> = number.to_string().parse();
            version.map(Language::from).map_err(|error| Refusal::new(number.span(), &error))
        }
        _ => Err(Refusal::new(word.span(), USAGE)),
    }
}

fn expect(rest: &mut token_stream::IntoIter, mark: char) -> Result<(), Refusal> {
    match rest.next() {
        Some(TokenTree::Punct(punct)) if punct.as_char() == mark => Ok(()),
        token => Err(unexpected(token)),
    }
}

/// The text of a literal, which a macro may have put into a group of its own.
fn quoted(token: Option<TokenTree>) -> Result<Quoted, Refusal> {
    match token {
        Some(TokenTree::Literal(literal)) => Quoted::of(literal),
        Some(TokenTree::Group(group)) if group.delimiter() == Delimiter::None => {
            quoted(group.stream().into_iter().next())
        }
        token => Err(unexpected(token)),
    }
}

fn unexpected(token: Option<TokenTree>) -> Refusal {
    Refusal::new(token.map_or_else(Span::call_site, |token| token.span()), USAGE)
}
