//! The stored samples of the sort check, of the evaluator and of the
//! image. Numbers have their low byte first.
//!
//! `checks.bin` has rows of: the answer, the first node without a sort or
//! 0, the count, and how many words the list has (two bytes each), then
//! its words.
//!
//! `values.bin` has rows of: the answer, the node that a refusal names or
//! 0, the count, and how many words the list, the given column and the
//! lent column have (two bytes each), then the words of all three. The
//! lent column is all ones before the call, and stored as it is after.
//!
//! `images.bin` has rows of 53 bytes: an image, the free pattern, the
//! answer of reading, the pattern that is read, and the image that is
//! written of that pattern. Where reading is refused the last two are
//! zeros.

use std::io;

use plain::image::{IMAGE, image, read};
use plain::sorts::{Format, Verdict};
use plain::state::ROW;
use plain::values::{VALUE, words};

use crate::checks;
use crate::formulas::KINDS;
use crate::images;
use crate::instructions::Grid;
use crate::patterns::{Patterns, bits};
use crate::rng::Rng;
use crate::values::{self, Case};

const SEED: u64 = 87;

/// Rows of `checks.bin`, and the words of its longest list.
const CHECKS: usize = 2_000;
const CHECK_WORDS: usize = 60;
/// At most one row in so many has over half of those words.
const LONG: usize = 8;

/// Lists of `values.bin`, and the nodes of the longest.
const VALUES: usize = 400;
const VALUE_NODES: usize = 26;
/// Refused calls of `values.bin` with each number.
const REFUSED: usize = 40;

/// Rows of `images.bin`, and bytes of each.
const IMAGES: usize = 1_000;
pub const IMAGE_ROW: usize = 2 * IMAGE + 4 * 8 + 1;

/// What a lent column holds before the call.
pub const UNWRITTEN: u64 = u64::MAX;

/// The content of `checks.bin`.
#[must_use]
pub fn checks() -> Vec<u8> {
    let (grid, mut rng) = (Grid::default(), Rng::new(SEED));
    let (mut bytes, mut rows) = (Vec::new(), 0);
    while rows < CHECKS {
        let case = checks::case(&grid, &mut rng);
        let long = case.nodes.len() > CHECK_WORDS / 2 && !rng.one_in(LONG);
        if long || case.nodes.len() > CHECK_WORDS || u16::try_from(case.count).is_err() {
            continue;
        }
        put_verdict(case.expected(), case.count, &mut bytes);
        put_length(&case.nodes, &mut bytes);
        put_words(&case.nodes, &mut bytes);
        rows += 1;
    }
    bytes
}

/// The content of `values.bin`.
///
/// # Errors
/// Where z3 cannot be run.
pub fn values() -> io::Result<Vec<u8>> {
    let mut rng = Rng::new(SEED);
    let good = good_cases(&mut rng);
    let all = values::by_z3(&good)?;
    let mut bytes = Vec::new();
    for (case, values) in good.iter().zip(&all) {
        let column: Vec<u64> = values.iter().flat_map(|&v| words(v)).collect();
        put_case(case, Verdict::PASSED, column, &mut bytes);
    }
    for (case, verdict) in refused_cases(&good, &mut rng) {
        put_case(&case, verdict, Vec::new(), &mut bytes);
    }
    Ok(bytes)
}

/// Lists that are evaluated, among them every kind.
fn good_cases(rng: &mut Rng) -> Vec<Case> {
    let grid = Grid::default();
    let mut cases = Vec::new();
    let mut seen = [false; KINDS + 1];
    while cases.len() < VALUES {
        let case = values::case(&grid, rng);
        if case.count <= VALUE_NODES && case.nodes.len() < (VALUE_NODES + 2) * ROW {
            for row in case.nodes.chunks_exact(ROW).take(case.count) {
                seen[usize::try_from(row[0]).expect("a kind")] = true;
            }
            cases.push(case);
        }
    }
    assert!(seen[1..].iter().all(|&kind| kind), "{seen:?}");
    cases
}

/// As many calls with each number that refuses.
fn refused_cases(good: &[Case], rng: &mut Rng) -> Vec<(Case, Verdict)> {
    let mut cases = Vec::new();
    for number in [plain::NO_SORT, plain::TOO_WIDE, plain::TOO_SHORT] {
        let mut left = REFUSED;
        while left > 0 {
            let mut case = rng.pick(good).clone();
            values::spoil(&mut case, rng);
            case.words = 1;
            match case.expected() {
                Err(verdict) if verdict.number == number => {
                    cases.push((case, verdict));
                    left -= 1;
                }
                _ => {}
            }
        }
    }
    cases
}

fn put_case(case: &Case, verdict: Verdict, mut column: Vec<u64>, bytes: &mut Vec<u8>) {
    column.resize(case.column, UNWRITTEN);
    put_verdict(verdict, case.count, bytes);
    let arrays = [&case.nodes, &case.given, &column];
    for words in arrays {
        put_length(words, bytes);
    }
    for words in arrays {
        put_words(words, bytes);
    }
}

fn put_verdict(verdict: Verdict, count: usize, bytes: &mut Vec<u8>) {
    bytes.push(u8::try_from(verdict.number).expect("a small number"));
    let node = u16::try_from(verdict.node).expect("two bytes");
    let count = u16::try_from(count).expect("two bytes");
    bytes.extend([node, count].into_iter().flat_map(u16::to_le_bytes));
}

fn put_length(words: &[u64], bytes: &mut Vec<u8>) {
    bytes.extend(u16::try_from(words.len()).expect("two bytes").to_le_bytes());
}

fn put_words(words: &[u64], bytes: &mut Vec<u8>) {
    bytes.extend(words.iter().flat_map(|word| word.to_le_bytes()));
}

/// The content of `images.bin`.
#[must_use]
pub fn images() -> Vec<u8> {
    let mut rng = Rng::new(SEED);
    let mut patterns = Patterns::default();
    let mut bytes = Vec::new();
    for _ in 0..IMAGES {
        let found = images::random(&mut rng);
        let free = if rng.one_in(8) {
            bits(&mut rng, 127)
        } else {
            patterns.float(&mut rng, Format::EXTENDED)
        };
        bytes.extend(found);
        put_words(&words(free), &mut bytes);
        let answer = read(&found, free);
        bytes.push(u8::try_from(answer.err().unwrap_or(0)).expect("a small number"));
        put_words(&answer.map_or([0; VALUE], words), &mut bytes);
        bytes.extend(answer.map_or([0; IMAGE], image));
    }
    bytes
}
