//! The harness as a process: functions run on this machine.

use std::io::{self, Read, Write};
use std::path::Path;
use std::process::{Child, ChildStdin, ChildStdout, Command, Stdio};

use crate::run::{ARENA, Part, Run};

/// The harness, waiting for requests.
pub struct Machine {
    child: Child,
    requests: ChildStdin,
    answers: ChildStdout,
    /// Where the arena is.
    pub arena: u32,
    /// Memory that is only read.
    pub parts: Vec<Part>,
}

impl Machine {
    /// Start a program that was linked with the harness.
    ///
    /// # Errors
    /// Where it cannot be run, or does not say where its memory is.
    pub fn start(program: &Path) -> io::Result<Self> {
        let mut child = Command::new(program)
            .stdin(Stdio::piped())
            .stdout(Stdio::piped())
            .spawn()?;
        let requests = child.stdin.take().ok_or(io::ErrorKind::BrokenPipe)?;
        let mut answers = child.stdout.take().ok_or(io::ErrorKind::BrokenPipe)?;
        let arena = word(&mut answers)?;
        let parts = (0..word(&mut answers)?).map(|_| part(&mut answers));
        Ok(Self {
            parts: parts.collect::<io::Result<_>>()?,
            child,
            requests,
            answers,
            arena,
        })
    }

    /// The steps of a function, as bytes.
    ///
    /// # Errors
    /// Where the function does not come back.
    pub fn steps(&mut self, function: u32, arena: &[u8; ARENA]) -> io::Result<Vec<u8>> {
        self.requests.write_all(&function.to_le_bytes())?;
        self.requests.write_all(arena)?;
        let length = word(&mut self.answers)?;
        bytes(&mut self.answers, length)
    }

    /// What a function does.
    ///
    /// # Errors
    /// Where it does not come back, or not soon enough.
    pub fn run(&mut self, function: u32, arena: &[u8; ARENA]) -> io::Result<Run> {
        let steps = self.steps(function, arena)?;
        let arena = Part {
            address: self.arena,
            bytes: arena.to_vec(),
        };
        Run::read(arena, &steps).ok_or_else(|| io::Error::other("a run without an end"))
    }
}

impl Drop for Machine {
    fn drop(&mut self) {
        // It may have ended by itself.
        let _ = self.child.kill();
        let _ = self.child.wait();
    }
}

fn part(answers: &mut ChildStdout) -> io::Result<Part> {
    let (address, size) = (word(answers)?, word(answers)?);
    let bytes = bytes(answers, size)?;
    Ok(Part { address, bytes })
}

fn word(answers: &mut ChildStdout) -> io::Result<u32> {
    let mut word = [0; 4];
    answers.read_exact(&mut word)?;
    Ok(u32::from_le_bytes(word))
}

fn bytes(answers: &mut ChildStdout, size: u32) -> io::Result<Vec<u8>> {
    let mut bytes = vec![0; size as usize];
    answers.read_exact(&mut bytes)?;
    Ok(bytes)
}
