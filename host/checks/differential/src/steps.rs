//! One step of a lift by the recording build of `x87.rs`: from any valid
//! state, the next state and the rows that the instruction adds; and the
//! detail of a decline, which the Rust does not have, as it is said
//! plainly.

use plain::state::{DEPTH, INPUTS, NODES, ROW, SLOTS, STATE, STATEMENTS, TEMPORARIES};
use plain::{DECLINED, Instruction};
use recorder::Lifter;
use recording_ir::expr::Expr;
use recording_ir::{Row, recorded};

use crate::oracle::spelt;

/// What a whole instruction does, had the lists all the room in the world.
#[derive(Debug, Clone)]
pub struct Step {
    pub answer: u32,
    /// Why it is declined, 0 beside every answer but 1.
    pub detail: u32,
    pub state: [u64; STATE],
    pub nodes: Vec<Row>,
    pub statements: Vec<Row>,
}

/// The kind of a statement that says 'unsupported'.
const UNSUPPORTED: u64 = 6;

/// Lift an instruction that is not refused, from a valid state.
#[must_use]
pub fn step(state: &[u64; STATE], insn: &Instruction) -> Step {
    let mut lifter = lifter(state);
    let as_spelt = spelt(insn);
    let ((), nodes) = recorded(small(state[NODES]), || lifter.lift(&as_spelt));
    let mut statements: Vec<Row> = lifter.statements().iter().map(|s| s.words()).collect();
    let answer = answer(&statements);
    let detail = if answer == DECLINED {
        plain::why(insn)
    } else {
        0
    };
    if let Some([UNSUPPORTED, .., last]) = statements.last_mut() {
        *last = detail.into();
    }
    Step {
        answer,
        detail,
        state: next(state, &lifter, &nodes, &statements),
        nodes,
        statements,
    }
}

/// A lift that goes on from this state.
fn lifter(state: &[u64; STATE]) -> Lifter {
    let depth = usize::try_from(state[DEPTH]).expect("at most 8");
    let slots = state[..depth].iter().map(|&n| Expr::node(small(n)));
    Lifter::new(
        slots.collect(),
        small(state[INPUTS]),
        small(state[TEMPORARIES]),
    )
}

/// A decline is told by its statement, which is the last.
fn answer(statements: &[Row]) -> u32 {
    match statements.last() {
        Some(&[UNSUPPORTED, number, ..]) => small(number),
        _ => plain::MODELLED,
    }
}

fn next(before: &[u64; STATE], lifter: &Lifter, nodes: &[Row], statements: &[Row]) -> [u64; STATE] {
    let mut state = [0; STATE];
    let slots = lifter.slots();
    assert!(slots.len() <= SLOTS, "the stack has eight slots");
    for (word, slot) in state.iter_mut().zip(&slots) {
        *word = slot.number();
    }
    state[DEPTH] = slots.len() as u64;
    state[NODES] = before[NODES] + nodes.len() as u64;
    state[STATEMENTS] = before[STATEMENTS] + statements.len() as u64;
    state[INPUTS] = lifter.inputs().into();
    state[TEMPORARIES] = lifter.temporaries().into();
    state
}

fn small(number: u64) -> u32 {
    u32::try_from(number).expect("below 2^32")
}

/// The words of rows, one after the other.
#[must_use]
pub fn words(rows: &[Row]) -> Vec<u64> {
    rows.iter().flatten().copied().collect::<Vec<u64>>()
}

/// The row of that number in a list, if the list has it.
#[must_use]
pub fn row(list: &[u64], number: u64) -> Option<Row> {
    let at = usize::try_from(number).ok()?.checked_mul(ROW)?;
    list.get(at..)?.first_chunk().copied()
}
