//! The stored answers, compared with the library: the test where the
//! r2SMT sources are not at hand.

use std::fs;
use std::path::PathBuf;

use plain::FLAT;
use plain::state::{NODES, ROW as ROW_WORDS, STATE, STATEMENTS};
use sleetgate_sys::DETAIL;

use crate::report::{Report, hex};
use crate::sample::{HEAD, ROW};
use crate::subject::Subject;

/// The folder of the stored answers, from this crate.
const FOLDER: &str = "../../../crates/replay/data";

/// Where a stored file lies.
#[must_use]
pub fn path(name: &str) -> PathBuf {
    PathBuf::from(env!("CARGO_MANIFEST_DIR"))
        .join(FOLDER)
        .join(name)
}

/// The content of a stored file, or `None` where it is not stored.
#[must_use]
pub fn file(name: &str) -> Option<Vec<u8>> {
    fs::read(path(name)).ok()
}

/// What the words to be told hold before a call.
const UNWRITTEN: u64 = u64::MAX;

/// A number that has room in a byte, or the largest byte.
fn byte(number: impl TryInto<u8>) -> u8 {
    number.try_into().unwrap_or(u8::MAX)
}

/// Compare classify, effect and why with the rows of `instructions.bin`.
pub fn instructions(subject: &impl Subject, stored: &[u8]) -> Report {
    let mut report = Report::default();
    assert_eq!(stored.len() % ROW, 0, "whole rows");
    for row in stored.chunks(ROW) {
        let flat = &row[..FLAT];
        let (mut form, mut effect) = ([UNWRITTEN; 8], [UNWRITTEN; 7]);
        let mut detail = [UNWRITTEN; DETAIL];
        let number = subject.classify(flat, &mut form);
        let same =
            subject.effect(flat, &mut effect) == number && subject.why(flat, &mut detail) == number;
        let mut got = flat.to_vec();
        got.push(byte(number));
        got.extend(form.iter().flat_map(|w| w.to_le_bytes()));
        got.extend(effect.into_iter().chain(detail).map(byte));
        report.count(row[FLAT].into());
        report.count_detail(row[ROW - 1].into());
        if got != row || !same {
            report.differs(|| format!("stored {}\ngot    {}", hex(row), hex(&got)));
        }
    }
    report
}

/// Compare the reader with the rows of `records.bin`.
pub fn records(subject: &impl Subject, mut stored: &[u8]) -> Report {
    let mut report = Report::default();
    while !stored.is_empty() {
        let input = usize::from(two_bytes(stored));
        let (row, rest) = stored.split_at(HEAD + input);
        stored = rest;
        report.count(row[4].into());
        let got = record_row(subject, row);
        if got != row {
            report.differs(|| format!("stored {}\ngot    {}", hex(row), hex(&got)));
        }
    }
    report
}

/// The row with the subject's answer in the place of the stored one.
fn record_row(subject: &impl Subject, row: &[u8]) -> Vec<u8> {
    let (mut words, mut flat) = ([UNWRITTEN; 2], [0; FLAT]);
    let at = two_bytes(&row[2..]).into();
    let number = subject.read_record(&row[HEAD..], at, &mut flat, &mut words);
    let mut got = row[..4].to_vec();
    got.push(byte(number));
    got.extend(u16::try_from(words[0]).unwrap_or(u16::MAX).to_le_bytes());
    got.push(byte(words[1]));
    got.extend(flat);
    got.extend(&row[HEAD..]);
    got
}

/// Where the parts of a row of `lifts.bin` begin.
mod lift_row {
    pub const ROOMS: usize = 52;
    pub const INSTRUCTION: usize = 56;
    pub const ANSWER: usize = 233;
    pub const COUNTS: usize = 286;
    pub const DETAIL: usize = 288;
    pub const ROWS: usize = 289;
}

/// Compare the lifter with the rows of `lifts.bin`.
pub fn lifts(subject: &impl Subject, mut stored: &[u8]) -> Report {
    let mut report = Report::default();
    while !stored.is_empty() {
        let counts = &stored[lift_row::COUNTS..];
        let added = usize::from(counts[0]) + usize::from(counts[1]);
        let (row, rest) = stored.split_at(lift_row::ROWS + added * 8 * ROW_WORDS);
        stored = rest;
        report.count(row[lift_row::ANSWER].into());
        report.count_detail(row[lift_row::DETAIL].into());
        let got = lift_answer(subject, row);
        if got != row[lift_row::ANSWER..] {
            report.differs(|| format!("stored {}\ngot {}", hex(row), hex(&got)));
        }
    }
    report
}

/// The part of a row from its answer on, as the subject says it.
fn lift_answer(subject: &impl Subject, row: &[u8]) -> Vec<u8> {
    let rooms = [0, 2].map(|i| usize::from(two_bytes(&row[lift_row::ROOMS + i..])));
    let mut nodes = vec![u64::MAX; rooms[0] * ROW_WORDS];
    let mut statements = vec![u64::MAX; rooms[1] * ROW_WORDS];
    let before: [u64; STATE] = state_at(row);
    let mut state = before;
    let flat = &row[lift_row::INSTRUCTION..lift_row::ANSWER];
    let mut detail = [UNWRITTEN; DETAIL];
    let number = subject.lift(flat, &mut state, &mut nodes, &mut statements, &mut detail);
    let mut got = vec![byte(number)];
    got.extend(state.iter().flat_map(|w| w.to_le_bytes()[..4].to_vec()));
    let added = |at: usize, list: &[u64]| written(list, before[at], state[at]);
    let (nodes, statements) = (added(NODES, &nodes), added(STATEMENTS, &statements));
    for list in [&nodes, &statements] {
        got.push(byte(list.len() / ROW_WORDS));
    }
    got.extend(detail.map(byte));
    got.extend(
        nodes
            .iter()
            .chain(&statements)
            .flat_map(|w| w.to_le_bytes()),
    );
    got
}

/// The words of the rows from one count to another; the other words must
/// be as they were.
fn written(list: &[u64], from: u64, to: u64) -> Vec<u64> {
    let at = |count: u64| usize::try_from(count).unwrap_or(0) * ROW_WORDS;
    let (from, to) = (at(from).min(list.len()), at(to).min(list.len()));
    let (from, to) = (from.min(to), to);
    let stray = list[..from].iter().chain(&list[to..]);
    assert!(stray.into_iter().all(|&w| w == u64::MAX), "a stray word");
    list[from..to].to_vec()
}

fn state_at(row: &[u8]) -> [u64; STATE] {
    let mut state = [0; STATE];
    for (word, bytes) in state.iter_mut().zip(row.chunks(4)) {
        *word = u32::from_le_bytes(bytes.try_into().expect("four bytes")).into();
    }
    state
}

fn two_bytes(bytes: &[u8]) -> u16 {
    u16::from_le_bytes([bytes[0], bytes[1]])
}
