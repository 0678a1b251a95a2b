//! The program `x87lift` as a process, compared byte for byte with the
//! listing that follows from the plain reader, the program's rooms (the
//! manual, section 8) and the Rust.

use std::fmt::Write;
use std::io;

use plain::state::{DEPTH, INPUTS, NODES, ROW, SLOTS, STATE, STATEMENTS, TEMPORARIES};
use plain::{INPUT_TOO_LONG, MODELLED, OVERFLOWED, Outcome, read};
use program::Program;
use sleetgate_sys::DETAIL;

use crate::lift;
use crate::programs::{Kind, batch};
use crate::report::{Report, hex};
use crate::rng::Rng;
use crate::trees::Follower;

/// Rows that the program lends, and the most bytes that it takes.
const NODE_ROOM: usize = 1_024;
const STATEMENT_ROOM: usize = 256;
const MOST_BYTES: usize = 16_384;

/// Shorter inputs that are tried to cut a difference down.
const TRIES: usize = 400;

/// Anything that makes a listing of an input.
pub trait Lists {
    /// # Errors
    /// Where it cannot be run.
    fn listing(&self, input: &[u8]) -> io::Result<Vec<u8>>;
}

impl Lists for Program {
    fn listing(&self, input: &[u8]) -> io::Result<Vec<u8>> {
        Program::listing(self, input)
    }
}

/// A listing as it should be.
#[derive(Debug, Clone, PartialEq, Eq)]
pub struct Expected {
    pub text: String,
    /// The refusal that ends it, or 0.
    pub number: u32,
    /// Instructions that were lifted, and of them those that were
    /// declined.
    pub lifted: u64,
    pub declined: u64,
    /// The details of the declines that have one.
    pub details: Vec<u32>,
    /// Where the unchanged Rust's trees differ from the recorded rows.
    pub tree: Option<String>,
}

/// Compare at least `size` inputs.
///
/// # Errors
/// Where the program cannot be run.
pub fn run(subject: &impl Lists, size: u64, seed: u64) -> io::Result<Report> {
    let mut rng = Rng::new(seed);
    let mut report = Report::default();
    while report.compared < size {
        for (kind, input) in batch(&mut rng) {
            compare(subject, kind, &input, &mut report)?;
        }
    }
    Ok(report)
}

fn compare(subject: &impl Lists, kind: Kind, input: &[u8], report: &mut Report) -> io::Result<()> {
    let expected = expect(input);
    report.count(expected.number);
    report.note(kind.name(), 1);
    report.note("instructions lifted", expected.lifted);
    report.note("instructions declined", expected.declined);
    for &detail in &expected.details {
        report.count_detail(detail);
    }
    if let Some(tree) = &expected.tree {
        report.differs(|| format!("{tree}\ninput {}", hex(input)));
    }
    if subject.listing(input)? != expected.text.as_bytes() {
        let said = match report.first {
            None => say(subject, kind, &smallest(subject, input)?)?,
            Some(_) => String::new(),
        };
        report.differs(|| said);
    }
    Ok(())
}

fn differs(subject: &impl Lists, input: &[u8]) -> io::Result<bool> {
    Ok(subject.listing(input)? != expect(input).text.as_bytes())
}

/// A short input that still differs: records are left out as long as it
/// does, and then bytes.
fn smallest(subject: &impl Lists, input: &[u8]) -> io::Result<Vec<u8>> {
    let mut records = Vec::new();
    let mut at = 0;
    while let Outcome::Record { next, .. } = read(input, at) {
        records.push(input[at..next].to_vec());
        at = next;
    }
    records.push(input[at..].to_vec());
    let mut tries = TRIES;
    let short = fewest(subject, records, &mut tries)?;
    let bytes = short.into_iter().map(|byte| vec![byte]).collect();
    fewest(subject, bytes, &mut tries)
}

/// The joined parts without those that are not needed: at first half of
/// them are left out at a time, in the end single ones.
fn fewest(subject: &impl Lists, mut parts: Vec<Vec<u8>>, tries: &mut usize) -> io::Result<Vec<u8>> {
    let mut count = parts.len().div_ceil(2);
    while count > 0 {
        let mut at = 0;
        while at < parts.len() && *tries > 0 {
            *tries -= 1;
            let mut fewer = parts.clone();
            fewer.drain(at..parts.len().min(at + count));
            if differs(subject, &fewer.concat())? {
                parts = fewer;
            } else {
                at += count;
            }
        }
        count /= 2;
    }
    Ok(parts.concat())
}

/// The first lines that differ, with the input.
fn say(subject: &impl Lists, kind: Kind, input: &[u8]) -> io::Result<String> {
    let (expected, got) = (expect(input).text, subject.listing(input)?);
    let got = String::from_utf8_lossy(&got);
    let mut lines = (1..).zip(expected.lines().zip(got.lines()));
    let first = match lines.find(|(_, (e, g))| e != g) {
        Some((number, (e, g))) => format!("line {number}\nexpected {e}\ngot      {g}"),
        None => format!("expected\n{expected}\ngot\n{got}"),
    };
    let (name, bytes) = (kind.name(), input.len());
    Ok(format!(
        "{name}, cut down to {bytes} bytes: {}\n{first}",
        hex(input)
    ))
}

/// The run over an input, by the rules of the manual, section 8.
#[must_use]
pub fn expect(input: &[u8]) -> Expected {
    let mut work = Work {
        state: [0; STATE],
        nodes: vec![0; NODE_ROOM * ROW],
        statements: vec![0; STATEMENT_ROOM * ROW],
        follower: Follower::default(),
        lifted: 0,
        declined: 0,
        details: Vec::new(),
        tree: None,
    };
    let refused = if input.len() > MOST_BYTES {
        Some((INPUT_TOO_LONG, 0))
    } else {
        work.records(input)
    };
    Expected {
        text: work.text(refused),
        number: refused.map_or(MODELLED, |(number, _)| number),
        lifted: work.lifted,
        declined: work.declined,
        details: work.details,
        tree: work.tree,
    }
}

/// A run under way.
struct Work {
    state: [u64; STATE],
    nodes: Vec<u64>,
    statements: Vec<u64>,
    follower: Follower,
    lifted: u64,
    declined: u64,
    details: Vec<u32>,
    tree: Option<String>,
}

impl Work {
    /// From record to record; gives the refusal and its place.
    fn records(&mut self, input: &[u8]) -> Option<(u32, usize)> {
        let mut at = 0;
        loop {
            match read(input, at) {
                Outcome::End { .. } => return None,
                Outcome::Refused { number, place } => return Some((number, place)),
                Outcome::Record { insn, next } => {
                    let number = self.lift(&insn);
                    if number > OVERFLOWED {
                        return Some((number, at));
                    }
                    at = next;
                }
            }
        }
    }

    fn lift(&mut self, insn: &plain::Instruction) -> u32 {
        let (nodes, statements) = (self.nodes.len(), self.statements.len());
        let expected = lift::expect(&insn.to_flat(), &self.state, nodes, statements, DETAIL);
        let Some(step) = expected.step else {
            return expected.number;
        };
        let before = self.state;
        lift::write(&mut self.nodes, &mut self.statements, &before, &step);
        self.state = step.state;
        self.lifted += 1;
        self.declined += u64::from(expected.number != MODELLED);
        self.details
            .extend((step.detail != 0).then_some(step.detail));
        let lists = (self.nodes.as_slice(), self.statements.as_slice());
        let followed = self.follower.follow(insn, &before, &self.state, lists);
        if let Err(tree) = followed {
            self.tree.get_or_insert(tree);
        }
        expected.number
    }

    fn text(&self, refused: Option<(u32, usize)>) -> String {
        let mut text = String::new();
        rows(&mut text, 'n', &self.nodes, self.state[NODES]);
        rows(&mut text, 's', &self.statements, self.state[STATEMENTS]);
        let [depth, inputs, temporaries] =
            [DEPTH, INPUTS, TEMPORARIES].map(|word| self.state[word]);
        let _ = write!(text, "d {depth} {inputs} {temporaries}");
        for (slot, _) in self.state[..SLOTS].iter().zip(0..depth) {
            let _ = write!(text, " {slot}");
        }
        text.push('\n');
        if let Some((number, place)) = refused {
            let _ = writeln!(text, "r {number} {place}");
        }
        text
    }
}

fn rows(text: &mut String, mark: char, list: &[u64], count: u64) {
    for (row, number) in list.chunks_exact(ROW).zip(0..count) {
        let [kind, a, b, c] = [0, 1, 2, 3].map(|word| row[word]);
        let _ = writeln!(text, "{mark} {number} {kind} {a} {b} {c}");
    }
}
