//! Finds the library of the readers, in this order:
//!
//! 1. in the folder that `TIMEFD_LIB_DIR` names;
//! 2. in this package, for the target: `native/TARGET/libtimefd.a`;
//! 3. where `pkg-config` knows it. With `TIMEFD_DYNAMIC=1` it is asked before the package's own is
//!    taken, and the shared library is linked;
//! 4. in the repository around this package, as `rt lib` leaves it, with the toolchain's library
//!    that it allocates with;
//! 5. in that repository's folder `out/`, as `./build` leaves it: nothing proved that one. A file
//!    beside it says so, and then Cargo does too.

use std::env;
use std::path::{Path, PathBuf};
use std::process::Command;

/// What names the folder, and what asks for the system's shared library.
const FOLDER: &str = "TIMEFD_LIB_DIR";
const DYNAMIC: &str = "TIMEFD_DYNAMIC";

/// The library as it is handed out, and the oldest one that this crate is written for.
const INSTALLED: &str = "libtimefd.a";
const OLDEST: &str = "0.2.0";

/// The readers as `rt lib` leaves them, and what passes their calls for memory on to `malloc`,
/// `realloc` and `free`.
const READERS: &str = "libtimefd_c.a";
const MEMORY: &str = "liblibc_c.a";

/// The file beside a library that nothing proved.
const UNPROVED: &str = "UNPROVED";

/// Finds and links it.
pub fn main() {
    println!("cargo::rustc-check-cfg=cfg(timefd_unproved)");
    for name in [FOLDER, DYNAMIC, "PKG_CONFIG_PATH"] {
        println!("cargo::rerun-if-env-changed={name}");
    }
    if env::var_os("DOCS_RS").is_some() {
        return; // The documentation links nothing.
    }
    if let Err(reason) = link() {
        println!("cargo::error={reason}");
    }
}

fn link() -> Result<(), String> {
    if let Some(folder) = env::var_os(FOLDER).map(PathBuf::from) {
        return link_folder(&folder, &folder).ok_or_else(|| {
            format!("there is no {INSTALLED} in {}, which {FOLDER} names", folder.display())
        });
    }
    let here = PathBuf::from(given("CARGO_MANIFEST_DIR"));
    let own = here.join("native").join(given("TARGET"));
    let found = if env::var_os(DYNAMIC).is_some_and(|value| value == "1") {
        link_system(true)
    } else {
        link_folder(&own, &own).or_else(|| link_system(false)).or_else(|| link_built(&here))
    };
    found.ok_or_else(|| {
        format!(
            "no library of timefd was found for {}: install libtimefd-dev or a release, and have \
             PKG_CONFIG_PATH name its folder lib/pkgconfig; or name the folder of {INSTALLED} in \
             {FOLDER}; or run `./build` in timefd's repository, which proves nothing, or `rt lib` in \
             its folder crates/timefd_c",
            given("TARGET")
        )
    })
}

/// What Cargo says to each build script.
fn given(name: &str) -> String {
    env::var(name).unwrap_or_else(|_| panic!("cargo sets {name}"))
}

/// Links what the folder has: the one file that is handed out, or else what `rt lib` leaves, with
/// the other library from there or from the second folder.
fn link_folder(folder: &Path, toolchain: &Path) -> Option<()> {
    let folder = folder.canonicalize().ok()?;
    if folder.join(INSTALLED).is_file() {
        link_static(&folder, INSTALLED);
        say_if_unproved(&folder);
        return Some(());
    }
    let memory = if folder.join(MEMORY).is_file() { &folder } else { toolchain };
    if !folder.join(READERS).is_file() || !memory.join(MEMORY).is_file() {
        return None;
    }
    // In this order: the first calls the second.
    link_static(&folder, READERS);
    link_static(memory, MEMORY);
    say_if_unproved(&folder);
    Some(())
}

/// Links what the repository around this package has built.
fn link_built(here: &Path) -> Option<()> {
    let top = here.ancestors().find(|folder| folder.join("crates/timefd_c").is_dir())?;
    let unproved = || link_folder(&top.join("out"), here);
    toolchain_folder()
        .and_then(|kit| link_folder(&top.join("crates/timefd_c/out"), &kit))
        .or_else(unproved)
}

/// Has the crate take a library that nothing proved, and Cargo say so.
fn say_if_unproved(folder: &Path) {
    if folder.join(UNPROVED).is_file() {
        println!("cargo::rustc-cfg=timefd_unproved");
        println!("cargo::warning=nothing proved the library in {}", folder.display());
    }
}

fn link_static(folder: &Path, file: &str) {
    let name = file.strip_prefix("lib").and_then(|name| name.strip_suffix(".a"));
    let name = name.expect("a library's file is named so");
    println!("cargo::rerun-if-changed={}", folder.join(file).display());
    println!("cargo::rustc-link-search=native={}", folder.display());
    println!("cargo::rustc-link-lib=static={name}");
}

/// Links what `pkg-config` knows, which is for this machine alone.
fn link_system(is_dynamic: bool) -> Option<()> {
    if given("TARGET") != given("HOST") {
        return None;
    }
    let folder = said_by("pkg-config", &["--variable=libdir", &format!("timefd >= {OLDEST}")])?;
    if !is_dynamic {
        return link_folder(&folder, &folder);
    }
    println!("cargo::rustc-link-search=native={}", folder.display());
    println!("cargo::rustc-link-lib=dylib=timefd");
    Some(())
}

/// The folder of the toolchain's libraries in C.
fn toolchain_folder() -> Option<PathBuf> {
    Some(said_by("rt", &["doc"])?.with_file_name("c"))
}

/// The path that a command prints.
fn said_by(command: &str, words: &[&str]) -> Option<PathBuf> {
    let output = Command::new(command).args(words).output().ok()?;
    let said = String::from_utf8(output.stdout).ok()?;
    let said = said.trim();
    (output.status.success() && !said.is_empty()).then(|| PathBuf::from(said))
}
