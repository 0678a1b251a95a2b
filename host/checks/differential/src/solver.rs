//! z3 and cvc5, as programs that are at hand or not.

use std::io::{self, ErrorKind, Write as _};
use std::process::{Command, Stdio};
use std::thread;

use crate::sexpr::{self, Sexpr};

/// A solver.
#[derive(Debug, Clone, Copy, PartialEq, Eq)]
pub enum Solver {
    Z3,
    Cvc5,
}

/// What stands before all other commands.
const LOGIC: &str = "(set-logic ALL)\n";

/// What stands between the answers to two commands, and what makes a solver
/// give values.
const NEXT: &str = "next commands";
const MODELS: &str = "(set-option :produce-models true)\n";

/// Longer than any question takes, in milliseconds.
const HOUR: u32 = 3_600_000;

/// What a solver says, on standard output and beside it on standard error.
#[derive(Debug, Clone, PartialEq, Eq)]
pub struct Said {
    pub printed: String,
    pub beside: String,
}

impl Solver {
    pub const ALL: [Self; 2] = [Self::Z3, Self::Cvc5];

    #[must_use]
    pub fn name(self) -> &'static str {
        match self {
            Self::Z3 => "z3",
            Self::Cvc5 => "cvc5",
        }
    }

    /// How it is told to read commands from its input. cvc5 takes floats
    /// of 15 and 64 bits as an experiment.
    fn arguments(self) -> &'static [&'static str] {
        match self {
            Self::Z3 => &["-smt2", "-in"],
            Self::Cvc5 => &["--lang=smt2", "--incremental", "--fp-exp", "-"],
        }
    }

    /// Whether it can be run.
    #[must_use]
    pub fn at_hand(self) -> bool {
        let version = Command::new(self.name()).arg("--version").output();
        version.is_ok_and(|v| v.status.success())
    }

    /// What is said where it is not at hand.
    #[must_use]
    pub fn missing(self) -> String {
        format!("{} is not at hand; solvers.sh installs it", self.name())
    }

    /// The terms that it prints on these commands.
    ///
    /// # Errors
    /// Where it cannot be run, or prints no whole terms.
    pub fn print(self, commands: &str) -> io::Result<Vec<Sexpr>> {
        let text = self.run(commands)?;
        sexpr::all(&text).ok_or_else(|| io::Error::other(format!("no whole terms: {text}")))
    }

    /// How it is told to think so long about a question at most.
    fn limit(self, milliseconds: u32) -> String {
        match self {
            Self::Z3 => format!("-t:{milliseconds}"),
            Self::Cvc5 => format!("--tlimit-per={milliseconds}"),
        }
    }

    /// The text that it prints on these commands.
    ///
    /// # Errors
    /// Where it cannot be run.
    pub fn run(self, commands: &str) -> io::Result<String> {
        let Said { printed, beside } = self.said(commands, HOUR)?;
        eprint!("{beside}");
        Ok(printed)
    }

    /// What it says on these commands, where it thinks so long about a
    /// question at most.
    ///
    /// # Errors
    /// Where it cannot be run.
    pub fn said(self, commands: &str, milliseconds: u32) -> io::Result<Said> {
        let mut child = Command::new(self.name())
            .arg(self.limit(milliseconds))
            .args(self.arguments())
            .stdin(Stdio::piped())
            .stdout(Stdio::piped())
            .stderr(Stdio::piped())
            .spawn()?;
        let mut input = child.stdin.take().expect("it is piped");
        let commands = format!("{LOGIC}{commands}");
        // It prints while it still reads, so one side needs its own thread.
        let writer = thread::spawn(move || input.write_all(commands.as_bytes()));
        let output = child.wait_with_output()?;
        match writer.join().expect("it does not panic") {
            // It stopped before it had read all.
            Err(e) if e.kind() == ErrorKind::BrokenPipe => {}
            written => written?,
        }
        let text = |bytes: &[u8]| String::from_utf8_lossy(bytes).into_owned();
        Ok(Said {
            printed: text(&output.stdout),
            beside: text(&output.stderr),
        })
    }

    /// What it says on each of these commands, which do not see one
    /// another, where it thinks so long about a question at most.
    ///
    /// # Errors
    /// Where it cannot be run.
    pub fn answers(
        self,
        commands: impl Iterator<Item = String>,
        milliseconds: u32,
    ) -> io::Result<Vec<String>> {
        let parts = commands.map(|part| format!("(push 1)\n{part}(pop 1)\n(echo \"{NEXT}\")\n"));
        let parts: Vec<String> = parts.collect();
        let mut answers = Vec::new();
        while answers.len() < parts.len() {
            let commands = parts[answers.len()..].concat();
            let Said { printed, beside } =
                self.said(&format!("{MODELS}{commands}"), milliseconds)?;
            let said = printed
                .split(NEXT)
                .map(|part| part.trim_matches(['"', '\n']));
            answers.extend(said.map(str::to_owned));
            // What stands behind the last mark belongs to the text at which it
            // stopped, if it did; it is asked anew of those behind that.
            if answers.len() > parts.len() {
                answers.pop();
            }
            if let Some(last) = answers.last_mut() {
                last.push_str(&beside);
            }
        }
        Ok(answers)
    }
}
