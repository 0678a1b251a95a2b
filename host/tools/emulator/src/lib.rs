//! Programs for x86-64 on a machine of another kind.
//!
//! Rattle's compiler makes code for x86-64. On another machine QEMU runs
//! it: the program `x87lift` as it is ([`command`]), and the static library
//! within a small program of C that is asked by a pipe ([`made`],
//! [`Served`]). Code for the machine itself, as all is on x86-64, is run as
//! it is.

use std::env;
use std::fs;
use std::io::{self, Error, Read as _, Write as _};
use std::path::Path;
use std::process::{Child, ChildStdin, ChildStdout, Command, Stdio};

/// What runs a program, and where the loader and the C library are that
/// it may ask for.
const EMULATOR: &str = "qemu-x86_64-static";
const ROOT: &str = "/usr/x86_64-linux-gnu";

/// What makes a program.
const COMPILER: &str = "x86_64-linux-gnu-gcc";

/// What is said where a program for x86-64 is not made or not run.
pub const NEEDED: &str = "a machine that is not x86-64 needs the Debian packages \
                          gcc-x86-64-linux-gnu, libc6-dev-amd64-cross and qemu-user-static \
                          (bash host/tools/emulator.sh)";

/// Whether a program or a library is for x86-64: behind the mark of the
/// first ELF file in it two bytes name the machine.
#[must_use]
pub fn is_for_x86_64(file: &[u8]) -> bool {
    let mark = file.windows(4).position(|bytes| bytes == b"\x7fELF");
    mark.and_then(|at| file.get(at + 18..at + 20)) == Some(&[62, 0])
}

/// Whether a program is not for this machine, but for x86-64.
fn is_foreign(program: &Path) -> bool {
    cfg!(not(target_arch = "x86_64")) && fs::read(program).is_ok_and(|file| is_for_x86_64(&file))
}

/// Whether a program is there and can be run, its loader too.
#[must_use]
pub fn runs(program: &Path) -> bool {
    let loader = Path::new(ROOT).join("lib64/ld-linux-x86-64.so.2");
    let ready = || loader.is_file() && output(Command::new(EMULATOR).arg("--version")).is_ok();
    program.is_file() && (!is_foreign(program) || ready())
}

/// The command that runs a program.
#[must_use]
pub fn command(program: &Path) -> Command {
    if !is_foreign(program) {
        return Command::new(program);
    }
    let mut command = Command::new(EMULATOR);
    command.args(["-L", ROOT]).arg(program);
    command
}

/// For a build script: whether the machine that is built for is not x86-64.
#[must_use]
pub fn is_needed() -> bool {
    required("CARGO_CFG_TARGET_ARCH") != "x86_64"
}

/// For a build script: make a program for x86-64 in the output folder, of C
/// files and libraries, and see that it ends well where it is asked nothing.
/// If not, a warning says what is needed, and the next build tries again: it
/// looks for a file that is never there.
#[must_use]
pub fn made(name: &str, parts: &[&Path]) -> bool {
    let program = Path::new(&required("OUT_DIR")).join(name);
    let Err(why) = compile(parts, &program) else {
        return true;
    };
    let never = program.with_extension("never");
    println!("cargo::rerun-if-changed={}", never.display());
    println!("cargo::warning={why}; {NEEDED}");
    false
}

fn required(name: &str) -> String {
    env::var(name).expect("cargo sets it")
}

fn compile(parts: &[&Path], program: &Path) -> io::Result<()> {
    let mut compiler = Command::new(COMPILER);
    let options = ["-O2", "-static", "-Wall", "-Wextra", "-o"];
    output(compiler.args(options).arg(program).args(parts))?;
    output(&mut command(program))
}

/// Run a command without input; an error tells in one line what it said.
fn output(command: &mut Command) -> io::Result<()> {
    let name = command.get_program().display().to_string();
    let told = |why: String| Error::other(format!("{name}: {why}"));
    let done = command.stdin(Stdio::null()).output();
    let done = done.map_err(|why| told(why.to_string()))?;
    if done.status.success() {
        return Ok(());
    }
    let said = String::from_utf8_lossy(&done.stderr).replace('\n', " ");
    Err(told(format!("{}: {said}", done.status)))
}

/// A program that answers requests, each once it has read all of it.
#[derive(Debug)]
pub struct Served {
    child: Child,
    requests: ChildStdin,
    answers: ChildStdout,
}

impl Served {
    /// Start a program.
    ///
    /// # Panics
    /// Where it cannot be started.
    #[must_use]
    pub fn start(program: &Path) -> Self {
        let mut command = command(program);
        let command = command.stdin(Stdio::piped()).stdout(Stdio::piped());
        let child = command.spawn();
        let mut child = child.unwrap_or_else(|why| failed(&why));
        Self {
            requests: child.stdin.take().expect("it has a pipe"),
            answers: child.stdout.take().expect("it has a pipe"),
            child,
        }
    }

    /// Write a request, then read all bytes of its answer.
    ///
    /// # Panics
    /// Where the program has ended.
    pub fn ask(&mut self, request: &[u8], answer: &mut [u8]) {
        let written = self.requests.write_all(request);
        let told = written.and_then(|()| self.answers.read_exact(answer));
        told.unwrap_or_else(|why| failed(&why));
    }
}

fn failed(why: &Error) -> ! {
    panic!("{EMULATOR} was not started or has ended: {why}; {NEEDED}")
}

impl Drop for Served {
    fn drop(&mut self) {
        // It may have ended by itself.
        let _ = self.child.kill();
        let _ = self.child.wait();
    }
}

#[cfg(test)]
mod tests {
    use super::Served;
    use std::path::Path;

    #[test]
    #[should_panic(expected = "has ended")]
    fn a_program_that_has_ended_is_told() {
        Served::start(Path::new("/bin/true")).ask(&[0], &mut [0]);
    }
}
