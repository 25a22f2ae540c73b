//! Links the library as `timefd` does, and tests whether this compiler knows positions inside a
//! literal.

use std::env;
use std::fs;
use std::path::Path;
use std::process::{Command, Stdio};

#[path = "../build.rs"]
mod library;

/// A macro that wants to know such places.
const PROBE: &str = "#![feature(proc_macro_span)]
extern crate proc_macro;
pub fn place(literal: &proc_macro::Literal) -> Option<proc_macro::Span> { literal.subspan(0..1) }
";

fn main() {
    println!("cargo::rustc-check-cfg=cfg(timefd_subspan)");
    println!("cargo::rerun-if-env-changed=RUSTC_BOOTSTRAP");
    library::main();
    if is_compiled(PROBE) {
        println!("cargo::rustc-cfg=timefd_subspan");
    }
}

fn is_compiled(source: &str) -> bool {
    let folder = env::var_os("OUT_DIR").expect("Cargo sets OUT_DIR");
    let file = Path::new(&folder).join("probe.rs");
    fs::write(&file, source).expect("OUT_DIR can be written to");
    let compiler = env::var_os("RUSTC").expect("Cargo sets RUSTC");
    Command::new(compiler)
        .args(["--crate-type=lib", "--emit=metadata", "--edition=2024", "--out-dir"])
        .arg(&folder)
        .arg(&file)
        .stderr(Stdio::null())
        .status()
        .is_ok_and(|status| status.success())
}
