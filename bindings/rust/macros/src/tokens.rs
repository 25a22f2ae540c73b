//! Code that is written as text, with names in it that stand for tokens.

use proc_macro::{Delimiter, Group, Span, TokenStream, TokenTree};

/// A name that stands for a token.
#[derive(Clone, Copy)]
pub(crate) enum Name {
    Message,
    Path,
    Text,
}

impl Name {
    fn word(self) -> &'static str {
        match self {
            Self::Message => "MESSAGE",
            Self::Path => "PATH",
            Self::Text => "TEXT",
        }
    }
}

/// Code whose names may still stand for tokens.
pub(crate) struct Code(TokenStream);

/// The code of a text.
pub(crate) fn of(source: &str) -> Code {
    Code(source.parse().expect("this macro writes Rust"))
}

/// The code in braces, as one expression.
pub(crate) fn block(code: TokenStream) -> TokenStream {
    TokenTree::Group(Group::new(Delimiter::Brace, code)).into()
}

impl Code {
    /// The same with these tokens in place of their names.
    pub(crate) fn named(self, names: &[(Name, TokenTree)]) -> Self {
        let put = |token: TokenTree| match &token {
            TokenTree::Ident(ident) => {
                let ident = ident.to_string();
                let found = names.iter().find(|(name, _)| name.word() == ident);
                found.map_or(token, |(_, put)| put.clone())
            }
            _ => token,
        };
        Self(each(self.0, &put))
    }

    /// All of it at one place of the program.
    pub(crate) fn at(self, span: Span) -> TokenStream {
        each(self.0, &|mut token| {
            token.set_span(span);
            token
        })
    }

    /// All of it where the macro is called.
    pub(crate) fn stream(self) -> TokenStream {
        self.0
    }
}

/// Each token, also of groups, as this makes it.
fn each(code: TokenStream, make: &impl Fn(TokenTree) -> TokenTree) -> TokenStream {
    code.into_iter()
        .map(|token| match token {
            TokenTree::Group(group) => {
                let mut inner = Group::new(group.delimiter(), each(group.stream(), make));
                inner.set_span(group.span());
                make(TokenTree::Group(inner))
            }
            token => make(token),
        })
        .collect()
}
