//! Why the macro was refused, as an error of the compiler.

use alloc::format;
use alloc::string::{String, ToString};
use proc_macro::{Literal, Span, TokenStream, TokenTree};

use crate::fault::Fault;
use crate::quoted::Quoted;
use crate::tokens::{self, Name};

/// An error, and where it stands in the program.
pub(crate) struct Refusal {
    span: Span,
    message: String,
}

impl Refusal {
    pub(crate) fn new(span: Span, message: &(impl ToString + ?Sized)) -> Self {
        Self { span, message: message.to_string() }
    }

    /// The fault of a text. Where the compiler doesn't mark places inside a literal, the message
    /// does.
    pub(crate) fn of_fault(fault: &Fault, quoted: &Quoted) -> Self {
        let advice = fault.nearest().map(|word| format!("the nearest word is `{word}`"));
        match quoted.span_of(fault.span()) {
            Some(span) => {
                let advice = advice.map_or_else(String::new, |advice| format!("\n{advice}"));
                Self { span, message: format!("{fault}{advice}") }
            }
            None => {
                let marked = marked(&quoted.text, fault);
                let advice = advice.map_or_else(String::new, |advice| format!(" {advice}"));
                Self { span: quoted.span(), message: format!("{fault}\n{marked}{advice}") }
            }
        }
    }

    /// A call of `compile_error!`.
    pub(crate) fn into_tokens(self) -> TokenStream {
        let message = Literal::string(&self.message);
        tokens::of("::core::compile_error! { MESSAGE }")
            .named(&[(Name::Message, TokenTree::Literal(message))])
            .at(self.span)
    }
}

/// The line of a text that has its fault, and marks below it.
fn marked(text: &str, fault: &Fault) -> String {
    let span = fault.span();
    let begin = text[..span.start].rfind('\n').map_or(0, |at| at + 1);
    let end = text[span.start..].find('\n').map_or(text.len(), |at| span.start + at);
    let line: String =
        text[begin..end].chars().map(|it| if it.is_control() { ' ' } else { it }).collect();
    let space = " ".repeat(text[begin..span.start].chars().count());
    let marks = text[span.start..span.end.min(end)].chars().count().max(1);
    format!("{line}\n{space}{}", "^".repeat(marks))
}
