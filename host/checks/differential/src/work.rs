//! Ready-made work for the benchmark and for counting: well-formed
//! sequences of one form or of all, in which nothing declines.
//!
//! A work's sequences depend on its name and on nothing else, so that two
//! libraries are handed the same calls.

use std::hint::black_box;

use plain::state::{DEPTH, ROW, STATE};
use plain::{FLAT, Instruction, MODELLED};
use sleetgate_sys::{DETAIL, STEP};

use crate::instructions::Grid;
use crate::names::NAMES;
use crate::oracle::classify;
use crate::rng::Rng;
use crate::sequences::Profile;
use crate::steps::{step, words};
use crate::trees::Follower;
use crate::wellformed::{self, Style};

/// The forms by their numbers, from 1 on, and then all of them in short
/// and in long sequences.
pub const WORKS: [&str; 14] = [
    "PushConst",
    "PushMemory",
    "PushSlot",
    "StoreMemory",
    "StoreSlot",
    "Arith",
    "CompareStatus",
    "CompareFlags",
    "ConditionalMove",
    "StoreStatus",
    "Exchange",
    "Unary",
    "mixed, short",
    "mixed, long",
];

/// Instructions of a sequence; one of a single form may have fewer.
const SHORT: usize = 8;
const LONG: usize = 48;

/// The rows that a list can have.
pub const ROWS: usize = 65_535;

/// So many sequences of the work with this number in [`WORKS`].
#[must_use]
pub fn sequences(work: usize, count: usize) -> Vec<Vec<Instruction>> {
    let number = 1 + work as u64;
    let mut rng = Rng::new(86 + number);
    let one = |_| match WORKS[work] {
        "mixed, short" => mixed(&mut rng, SHORT),
        "mixed, long" => mixed(&mut rng, LONG),
        _ => family(&mut rng, number),
    };
    (0..count).map(one).collect()
}

/// A sequence of one form; it ends early where its next push would
/// overflow.
fn family(rng: &mut Rng, form: u64) -> Vec<Instruction> {
    let style = Style {
        odd: false,
        near: true,
    };
    let mut sequence = Vec::new();
    let mut state = [0; STATE];
    while sequence.len() < SHORT {
        let name = rng.pick(&NAMES);
        let insn = wellformed::of_name(rng, style, name, 4);
        if classify(&insn).is_none_or(|words| words[0] != form) {
            continue;
        }
        let next = step(&state, &insn);
        if next.answer != MODELLED {
            break;
        }
        state = next.state;
        sequence.push(insn);
    }
    sequence
}

/// A sequence of all forms in which nothing declines and no tree is too
/// large.
fn mixed(rng: &mut Rng, length: usize) -> Vec<Instruction> {
    loop {
        if let Some(sequence) = modelled(rng, length) {
            return sequence;
        }
    }
}

fn modelled(rng: &mut Rng, length: usize) -> Option<Vec<Instruction>> {
    let grid = Grid::default();
    let profile = Profile::plain(length);
    let mut follower = Follower::default();
    let (mut state, mut sequence) = ([0; STATE], Vec::new());
    let (mut nodes, mut statements) = (Vec::new(), Vec::new());
    for _ in 0..profile.length {
        let insn = profile.next(&grid, rng, depth(&state));
        let next = step(&state, &insn);
        nodes.extend(words(&next.nodes));
        statements.extend(words(&next.statements));
        let lists = (nodes.as_slice(), statements.as_slice());
        follower.follow(&insn, &state, &next.state, lists).ok()?;
        if next.answer != MODELLED || follower.left_out > 0 {
            return None;
        }
        state = next.state;
        sequence.push(insn);
    }
    Some(sequence)
}

/// The depth of a state.
///
/// # Panics
/// Never on a valid state.
#[must_use]
pub fn depth(state: &[u64; STATE]) -> usize {
    usize::try_from(state[DEPTH]).expect("at most 8")
}

/// The lists that are lent to the library, and never cleared.
pub struct Lists {
    nodes: Vec<u64>,
    statements: Vec<u64>,
}

impl Default for Lists {
    fn default() -> Self {
        Self {
            nodes: vec![0; ROWS * ROW],
            statements: vec![0; ROWS * ROW],
        }
    }
}

impl Lists {
    /// Lift one instruction.
    pub fn lift(&mut self, flat: &[u8; FLAT], state: &mut [u64; STATE]) -> u32 {
        let (nodes, statements) = (&mut self.nodes, &mut self.statements);
        sleetgate_sys::lift(flat, state, nodes, statements, &mut [0; DETAIL])
    }

    /// Lift the record at a place, and give the next place.
    fn lift_record(&mut self, input: &[u8], at: usize, state: &mut [u64; STATE]) -> usize {
        let (nodes, statements) = (&mut self.nodes, &mut self.statements);
        let mut told = [0; STEP];
        let answer = sleetgate_sys::lift_record(input, at, state, nodes, statements, &mut told);
        assert_eq!((answer, told[1]), (MODELLED, 1));
        usize::try_from(told[0]).expect("a place")
    }

    /// Lift each sequence from a fresh state.
    ///
    /// # Panics
    /// Where an instruction is not modelled.
    pub fn lift_all(&mut self, sequences: &[Vec<[u8; FLAT]>]) {
        for sequence in sequences {
            let mut state = [0; STATE];
            for flat in sequence {
                let answer = self.lift(black_box(flat), &mut state);
                assert_eq!(answer, MODELLED);
            }
            black_box(&state);
        }
    }

    /// Lift the records of each input from a fresh state.
    ///
    /// # Panics
    /// Where a record is not modelled.
    pub fn lift_records(&mut self, inputs: &[Vec<u8>]) {
        for input in inputs {
            let mut state = [0; STATE];
            let mut at = 0;
            while at < input.len() {
                at = self.lift_record(black_box(input), at, &mut state);
            }
            black_box(&state);
        }
    }
}

#[cfg(test)]
mod tests {
    use super::*;

    /// A work is of its own form, and is the same each time it is made.
    #[test]
    fn a_work_is_what_its_name_says() {
        for (work, name) in WORKS.into_iter().enumerate() {
            let made = sequences(work, 20);
            assert_eq!(made, sequences(work, 20), "{name}");
            for sequence in made {
                match name {
                    "mixed, short" => assert_eq!(sequence.len(), SHORT),
                    "mixed, long" => assert_eq!(sequence.len(), LONG),
                    _ => assert!((1..=SHORT).contains(&sequence.len()), "{name}"),
                }
                for insn in sequence {
                    let form = classify(&insn).expect("modelled")[0];
                    assert!(
                        name.starts_with("mixed") || form == 1 + work as u64,
                        "{name}"
                    );
                }
            }
        }
    }
}
