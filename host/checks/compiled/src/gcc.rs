//! Compiling and disassembling.

use std::fs;
use std::io;
use std::path::{Path, PathBuf};
use std::process::Command;

use crate::functions::Group;

const OPTIONS: [&str; 14] = [
    "-m32",
    "-mfpmath=387",
    "-mno-sse",
    "-ffreestanding",
    "-fno-pic",
    "-fno-pie",
    "-fno-asynchronous-unwind-tables",
    "-fno-stack-protector",
    "-fno-math-errno",
    "-nostdlib",
    "-static",
    "-Wl,--build-id=none",
    "-Wl,-z,separate-code",
    "-Wall",
];

/// A program that was linked with the harness, and the disassembly of the
/// functions in it.
#[derive(Debug, Clone)]
pub struct Compiled {
    pub program: PathBuf,
    pub objdump: String,
}

/// Compile a group into a folder.
///
/// # Errors
/// Where gcc or objdump cannot do it here.
pub fn compile(group: &Group, level: &str, folder: &Path) -> io::Result<Compiled> {
    let name = format!("{}{level}", group.name);
    let source = code().join(group.source);
    linked(&name, level, group.options, &source, folder)
}

/// Assemble functions into a folder.
///
/// # Errors
/// Where gcc or objdump cannot do it here.
pub fn assemble(name: &str, assembly: &str, folder: &Path) -> io::Result<Compiled> {
    let source = folder.join(format!("{name}.s"));
    fs::write(&source, assembly)?;
    linked(name, "-O1", &[], &source, folder)
}

/// The same code as LLVM's tool writes it.
///
/// # Errors
/// Where there is no such tool.
pub fn llvm(program: &Path) -> io::Result<String> {
    output(
        Command::new("llvm-objdump")
            .args(["-d", "--x86-asm-syntax=intel", "-j", ".text"])
            .arg(program),
    )
}

/// Where the C files are.
fn code() -> PathBuf {
    Path::new(env!("CARGO_MANIFEST_DIR")).join("code")
}

/// Make a program of a source and the harness.
fn linked(
    name: &str,
    level: &str,
    options: &[&str],
    source: &Path,
    folder: &Path,
) -> io::Result<Compiled> {
    let program = folder.join(name);
    output(
        Command::new("gcc")
            .args(OPTIONS)
            .args(options)
            .arg(level)
            .arg("-o")
            .arg(&program)
            .args([&code().join("harness.c"), source]),
    )?;
    let objdump = output(
        Command::new("objdump")
            .args(["-d", "-M", "intel", "-j", ".text", name])
            .current_dir(folder),
    )?;
    Ok(Compiled { program, objdump })
}

/// What a command writes, where all goes well.
fn output(command: &mut Command) -> io::Result<String> {
    let done = command.output()?;
    if !done.status.success() {
        let said = String::from_utf8_lossy(&done.stderr).into_owned();
        return Err(io::Error::other(said));
    }
    String::from_utf8(done.stdout).map_err(io::Error::other)
}
