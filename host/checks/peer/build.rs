//! Compiles the C file into a static library for the machine that is built
//! for.

use std::env;
use std::path::Path;
use std::process::Command;

/// The environment variable that names another C compiler.
const VARIABLE: &str = "PEER_CC";
const COMPILER: &str = "cc";

const SOURCE: &str = "src/values.c";

fn main() {
    println!("cargo::rerun-if-env-changed={VARIABLE}");
    println!("cargo::rerun-if-changed={SOURCE}");
    let folder = env::var("OUT_DIR").expect("cargo sets it");
    let folder = Path::new(&folder);
    let compiler = env::var_os(VARIABLE).unwrap_or_else(|| COMPILER.into());
    let object = folder.join("values.o");
    let options = ["-O3", "-fPIE", "-Wall", "-Wextra", "-c", SOURCE, "-o"];
    run(Command::new(compiler).args(options).arg(&object));
    let archive = folder.join("libvalues.a");
    run(Command::new("ar").arg("crs").arg(archive).arg(&object));
    println!("cargo::rustc-link-search=native={}", folder.display());
    println!("cargo::rustc-link-lib=static=values");
}

fn run(command: &mut Command) {
    let status = command.status();
    let done = status.as_ref().is_ok_and(|status| status.success());
    assert!(done, "{command:?}: {status:?}");
}
