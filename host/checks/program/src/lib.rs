//! The program `x87lift`, run as a process.

use std::env;
use std::io::{self, ErrorKind, Write};
use std::path::{Path, PathBuf};
use std::process::Stdio;

/// The environment variable that names the program.
const VARIABLE: &str = "SLEETGATE_X87LIFT";

/// From this crate to the program, where the variable does not say
/// otherwise.
const DEFAULT: &str = "../../../crates/x87lift/out/x87lift";

/// What is said where the program is not there.
#[cfg(target_arch = "x86_64")]
pub const MISSING: &str =
    "the program x87lift is not there; build it by: (cd crates/x87lift && rt run -- --version)";

/// What is said where the program is not there, or cannot be run.
#[cfg(not(target_arch = "x86_64"))]
pub const MISSING: &str = "the program x87lift, or what runs code for x86-64, is not there; build \
                           it by: (cd crates/x87lift && rt run -- --version); install the rest \
                           by: bash host/tools/emulator.sh";

/// The program, by its path.
#[derive(Debug, Clone)]
pub struct Program(PathBuf);

impl Program {
    /// The program, if it is built and can be run.
    #[must_use]
    pub fn at_hand() -> Option<Self> {
        let path = env::var_os(VARIABLE).map_or_else(
            || Path::new(env!("CARGO_MANIFEST_DIR")).join(DEFAULT),
            PathBuf::from,
        );
        emulator::runs(&path).then_some(Self(path))
    }

    /// What it writes when it is started with these arguments and no input.
    ///
    /// # Errors
    /// Where it cannot be run, or ends with a status other than 0.
    pub fn said(&self, words: &[&str]) -> io::Result<Vec<u8>> {
        let done = emulator::command(&self.0)
            .args(words)
            .stdin(Stdio::null())
            .output()?;
        if !done.status.success() {
            return Err(io::Error::other(done.status.to_string()));
        }
        Ok(done.stdout)
    }

    /// What it writes for an input.
    ///
    /// # Errors
    /// Where it cannot be run, ends with a status other than 0, or writes
    /// to standard error.
    pub fn listing(&self, input: &[u8]) -> io::Result<Vec<u8>> {
        let mut child = emulator::command(&self.0)
            .stdin(Stdio::piped())
            .stdout(Stdio::piped())
            .stderr(Stdio::piped())
            .spawn()?;
        if let Some(mut stdin) = child.stdin.take() {
            match stdin.write_all(input) {
                // It reads no more than it needs to refuse a long input.
                Err(e) if e.kind() == ErrorKind::BrokenPipe => {}
                written => written?,
            }
        }
        let done = child.wait_with_output()?;
        if !done.status.success() || !done.stderr.is_empty() {
            let said = String::from_utf8_lossy(&done.stderr).into_owned();
            return Err(io::Error::other(format!("{}: {said}", done.status)));
        }
        Ok(done.stdout)
    }
}
