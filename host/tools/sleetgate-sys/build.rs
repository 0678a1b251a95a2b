//! Links the static library of the proved crates, where it is built: into
//! the program that takes this crate, or, where that is not for x86-64 and
//! the library is, into a program for x86-64 that is asked.

use std::env;
use std::fs;
use std::path::{Path, PathBuf};

/// The environment variable that names the library.
const VARIABLE: &str = "SLEETGATE_LIB";

/// From this crate to the library, where the variable does not say
/// otherwise.
const DEFAULT: &str = "../../../target/staticlib/libexport.a";

/// The program that is asked where the machine is not x86-64.
const SERVED: &str = "src/served.c";

/// What is said where the library is an older one.
const ANEW: &str = "make it anew by `bash host/tools/library.sh`";

/// The calls that the library has to export.
const CALLS: [&str; 12] = [
    "x87_classify",
    "x87_why",
    "x87_effect",
    "x87_read_record",
    "x87_lift",
    "x87_lift_record",
    "x87_image_read",
    "x87_image_write",
    "x87_check",
    "x87_evaluate",
    "x87_smt_write",
    "x87_smt_read",
];

fn main() {
    println!("cargo::rustc-check-cfg=cfg(no_library, emulated)");
    println!("cargo::rerun-if-env-changed={VARIABLE}");
    println!("cargo::rerun-if-changed={SERVED}");
    let path = library();
    println!("cargo::rerun-if-changed={}", path.display());
    let Ok(archive) = fs::read(&path) else {
        println!("cargo::rustc-cfg=no_library");
        return;
    };
    let defined = defined(&archive);
    let lacks = |name: &&str| !defined.contains(&name.as_bytes());
    let lacking: Vec<&str> = CALLS.into_iter().filter(lacks).collect();
    if !lacking.is_empty() {
        let (path, lacking) = (path.display(), lacking.join(", "));
        println!("cargo::error={path} does not export {lacking}; {ANEW}");
        return;
    }
    if !emulator::is_needed() || !emulator::is_for_x86_64(&archive) {
        link(&path);
    } else if emulator::made("served", &[Path::new(SERVED), &path]) {
        println!("cargo::rustc-cfg=emulated");
    } else {
        println!("cargo::rustc-cfg=no_library");
    }
}

fn library() -> PathBuf {
    env::var_os(VARIABLE).map_or_else(
        || {
            let here = env::var("CARGO_MANIFEST_DIR").expect("cargo sets it");
            Path::new(&here).join(DEFAULT)
        },
        PathBuf::from,
    )
}

fn link(path: &Path) {
    let stem = path.file_stem().and_then(|s| s.to_str());
    let name = stem
        .and_then(|s| s.strip_prefix("lib"))
        .expect("a library is named lib*.a");
    let folder = path.canonicalize().expect("it was just read");
    let folder = folder.parent().expect("a file stands in a folder");
    println!("cargo::rustc-link-search=native={}", folder.display());
    println!("cargo::rustc-link-lib=static={name}");
}

/// The symbols that an archive defines. Its index lies behind a mark and a
/// header: how many they are, a place for each, then the names, each ended by
/// a zero byte.
fn defined(archive: &[u8]) -> Vec<&[u8]> {
    const MARK_AND_HEADER: usize = 8 + 60;
    let index = archive.get(MARK_AND_HEADER..).unwrap_or_default();
    let Some((count, rest)) = index.split_first_chunk() else {
        return Vec::new();
    };
    let count = u32::from_be_bytes(*count) as usize;
    let names = rest.get(4 * count..).unwrap_or_default();
    names.split(|&byte| byte == 0).take(count).collect()
}
