//! Links what `borrowed-library` leaves. The library for C comes with the crate for Rust.

use std::path::Path;

fn main() {
    let manifest = std::env::var("CARGO_MANIFEST_DIR").expect("cargo sets it");
    let folder = Path::new(&manifest).join("out");
    println!("cargo::rerun-if-changed={}", folder.join("libtimefd_borrowed.a").display());
    println!("cargo::rustc-link-search=native={}", folder.display());
    println!("cargo::rustc-link-lib=static=timefd_borrowed");
}
