//! Where the sources of r2SMT are, for the build scripts of this
//! workspace.
//!
//! The folder is named by the environment variable `R2SMT_SRC`; where it
//! is not set, it is `../shared/docs/src` beside the repository. Nothing
//! of it is copied into the repository. Where the files are not there,
//! the build goes on without them under `cfg(no_oracle)`.

use std::env;
use std::fs;
use std::path::{Path, PathBuf};

/// The environment variable that names the folder.
const VARIABLE: &str = "R2SMT_SRC";

/// From a crate of this workspace to the folder, where the variable does
/// not say otherwise.
const DEFAULT: &str = "../../../../shared/docs/src";

const EXPR: &str = "crates/r2smt-ir/src/expr.rs";
const STMT: &str = "crates/r2smt-ir/src/stmt.rs";
const X87: &str = "crates/r2smt-slicer/src/lift/x87.rs";

/// The three files that are built as they are.
pub struct Sources {
    pub expr: PathBuf,
    pub stmt: PathBuf,
    pub x87: PathBuf,
}

/// The sources, if all three files are at hand. Tells cargo what the
/// answer depends on, and sets `cfg(no_oracle)` where they are not.
#[must_use]
pub fn at_hand() -> Option<Sources> {
    println!("cargo::rustc-check-cfg=cfg(no_oracle)");
    println!("cargo::rerun-if-env-changed={VARIABLE}");
    let found = in_folder(&folder());
    if found.is_none() {
        println!("cargo::rustc-cfg=no_oracle");
    }
    found
}

fn folder() -> PathBuf {
    env::var_os(VARIABLE).map_or_else(
        || Path::new(&required("CARGO_MANIFEST_DIR")).join(DEFAULT),
        PathBuf::from,
    )
}

fn in_folder(folder: &Path) -> Option<Sources> {
    Some(Sources {
        expr: file(folder, EXPR)?,
        stmt: file(folder, STMT)?,
        x87: file(folder, X87)?,
    })
}

/// The full path of a file that is there. A module's `#[path]` may then
/// name it from anywhere.
fn file(folder: &Path, name: &str) -> Option<PathBuf> {
    let path = folder.join(name);
    println!("cargo::rerun-if-changed={}", path.display());
    path.canonicalize().ok()
}

/// The text of `path`.
///
/// # Panics
/// Where the file cannot be read: it was found a moment ago.
#[must_use]
pub fn text(path: &Path) -> String {
    fs::read_to_string(path).unwrap_or_else(|e| panic!("{}: {e}", path.display()))
}

/// Write `content` to `name` in cargo's output folder, and give its path.
///
/// # Panics
/// Where cargo's output folder cannot be written.
pub fn write_out(name: &str, content: &str) -> PathBuf {
    let path = Path::new(&required("OUT_DIR")).join(name);
    fs::write(&path, content).unwrap_or_else(|e| panic!("{}: {e}", path.display()));
    path
}

/// Write the module `x87` of a build: the given text, followed by one
/// line that lets `probe.rs` see its private types, and a file
/// `x87_module.rs` that names the module.
pub fn write_x87(text: &str, probe: &Path) {
    println!("cargo::rerun-if-changed={}", probe.display());
    let line = format!("\n#[path = {probe:?}]\npub(crate) mod probe;\n");
    let path = write_out("x87.rs", &format!("{text}{line}"));
    let allowed = "#[allow(dead_code, unused_imports, clippy::all, clippy::pedantic)]";
    write_out(
        "x87_module.rs",
        &format!("{allowed}\n#[path = {path:?}]\nmod x87;\n"),
    );
}

/// The probe, from the build script of a crate beside `r2smt-slicer`.
#[must_use]
pub fn probe() -> PathBuf {
    Path::new(&required("CARGO_MANIFEST_DIR")).join("../r2smt-slicer/src/probe.rs")
}

fn required(name: &str) -> String {
    env::var(name).unwrap_or_else(|e| panic!("{name}: {e}"))
}
