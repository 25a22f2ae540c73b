//! What is suspect in a description, as warnings of the compiler.

use alloc::format;
use proc_macro::{Literal, TokenStream, TokenTree};

use crate::description::FormatDescription;
use crate::quoted::Quoted;
use crate::tokens::{self, Name};
use crate::warning::Warning;

/// For each warning a constant that is deprecated, and the use of it: no other warning of the
/// compiler is open to macros.
pub(crate) fn tokens(description: &FormatDescription<'_>, quoted: &Quoted) -> TokenStream {
    let warnings = description.warnings().unwrap_or_default();
    warnings.into_iter().filter(is_told).flat_map(|warning| one(warning, quoted)).collect()
}

/// Whether the compiler is to warn of it. Not each description is read by, so that it may leave a date
/// open.
fn is_told(warning: &Warning) -> bool {
    !matches!(warning, Warning::UndeterminedDate)
}

fn one(warning: Warning, quoted: &Quoted) -> TokenStream {
    let message = Literal::string(&format!("{warning}: {}", warning.sentence()));
    tokens::of(
        "const _: () = {
            #[deprecated(note = MESSAGE)]
            const SUSPECT: () = ();
            SUSPECT
        };",
    )
    .named(&[(Name::Message, TokenTree::Literal(message))])
    .at(quoted.span())
}
