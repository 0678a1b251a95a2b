//! The stored sample of lifts, `lifts.bin`.
//!
//! A row stands for itself: the state before (13 numbers of four bytes,
//! low byte first), the rooms lent for nodes and statements (two bytes
//! each), the 177 bytes of the instruction, the answer, the state after,
//! how many nodes and how many statements were added and the detail of a
//! decline (one byte each), then the added rows, each of four words of
//! eight bytes.

use plain::Instruction;
use plain::state::{DEPTH, NODES, ROW, STATE, STATEMENTS};
use sleetgate_sys::DETAIL;

use crate::instructions::{Grid, put_out_of_range};
use crate::lift::expect;
use crate::names::NAMES;
use crate::rng::Rng;
use crate::sample::declines;
use crate::sequences::Profile;
use crate::wellformed::{self, Style};

const SEED: u64 = 87;
/// Instructions of each name.
const OF_NAME: usize = 10;
/// Random sequences, and the longest of them.
const SEQUENCES: usize = 70;
const LONGEST: usize = 25;
/// Rows that a call is lent at most.
const MOST: u64 = 1_024;

/// The content of `lifts.bin`.
#[must_use]
pub fn lifts() -> Vec<u8> {
    let mut rng = Rng::new(SEED);
    let mut bytes = Vec::new();
    for name in NAMES {
        of_name(name, &mut rng, &mut bytes);
    }
    let grid = Grid::default();
    for _ in 0..SEQUENCES {
        let profile = Profile::random(&mut rng);
        let mut state = [0; STATE];
        for _ in 0..profile.length.min(LONGEST) {
            let insn = profile.next(&grid, &mut rng, depth(&state));
            beside(&state, &insn, &mut rng, &mut bytes);
            state = put(&state, &insn, [MOST; 2], &mut bytes);
        }
    }
    bytes
}

/// Two pushes, then instructions of one name; the last of them decline.
fn of_name(name: &str, rng: &mut Rng, bytes: &mut Vec<u8>) {
    let mut state = [0; STATE];
    for push in ["fldz", "fld1"] {
        let insn = Instruction::new(1, push.as_bytes(), &[]);
        state = put(&state, &insn, [MOST; 2], bytes);
    }
    for round in 0..OF_NAME {
        let style = Style {
            odd: round % 2 == 1,
            near: round % 3 != 2,
        };
        let insn = wellformed::of_name(rng, style, name, depth(&state));
        state = put(&state, &insn, [MOST; 2], bytes);
    }
    for insn in declines(name, rng) {
        state = put(&state, &insn, [MOST; 2], bytes);
    }
}

fn depth(state: &[u64; STATE]) -> usize {
    usize::try_from(state[DEPTH]).expect("at most 8")
}

/// Now and then, the same instruction with exactly the room it needs,
/// with one row less, in another state, or out of range.
fn beside(state: &[u64; STATE], insn: &Instruction, rng: &mut Rng, bytes: &mut Vec<u8>) {
    let after = after(state, insn, [MOST; 2]);
    let [nodes, statements] = [after[NODES], after[STATEMENTS]];
    match rng.below(16) {
        0 => drop(put(state, insn, [nodes, statements], bytes)),
        1 => drop(put(
            state,
            insn,
            [nodes.saturating_sub(1), statements],
            bytes,
        )),
        2 => drop(put(
            state,
            insn,
            [nodes, statements.saturating_sub(1)],
            bytes,
        )),
        3 => {
            let mut other = *state;
            other[rng.below(STATE)] = rng.below(12) as u64;
            put(&other, insn, [MOST; 2], bytes);
        }
        4 => {
            let mut insn = *insn;
            put_out_of_range(&mut insn, rng);
            put(state, &insn, [MOST; 2], bytes);
        }
        _ => {}
    }
}

fn after(state: &[u64; STATE], insn: &Instruction, rooms: [u64; 2]) -> [u64; STATE] {
    put(state, insn, rooms, &mut Vec::new())
}

/// Put one row, and give the state after it.
fn put(
    state: &[u64; STATE],
    insn: &Instruction,
    rooms: [u64; 2],
    bytes: &mut Vec<u8>,
) -> [u64; STATE] {
    let flat = insn.to_flat();
    let [nodes, statements] = rooms.map(|r| usize::try_from(r).expect("small") * ROW);
    let expected = expect(&flat, state, nodes, statements, DETAIL);
    let mut detail = [0; DETAIL];
    expected.tell(&mut detail);
    let (after, nodes, statements) = match expected.step {
        Some(step) => (step.state, step.nodes, step.statements),
        None => (*state, Vec::new(), Vec::new()),
    };
    put_state(state, bytes);
    bytes.extend(rooms.iter().flat_map(|&r| small::<2>(r)));
    bytes.extend(flat);
    bytes.extend(small::<1>(expected.number.into()));
    put_state(&after, bytes);
    bytes.extend(small::<1>(nodes.len() as u64));
    bytes.extend(small::<1>(statements.len() as u64));
    bytes.extend(small::<1>(detail[0]));
    let words = nodes.iter().chain(&statements).flatten();
    bytes.extend(words.flat_map(|w| w.to_le_bytes()));
    after
}

fn put_state(state: &[u64; STATE], bytes: &mut Vec<u8>) {
    bytes.extend(state.iter().flat_map(|&word| small::<4>(word)));
}

/// The low bytes of a number that fits them.
fn small<const N: usize>(number: u64) -> [u8; N] {
    let bytes = number.to_le_bytes();
    assert!(bytes[N..].iter().all(|&b| b == 0), "{number} in {N} bytes");
    bytes[..N].try_into().expect("N bytes")
}
