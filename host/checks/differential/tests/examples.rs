//! The examples of the manual, section 10, on the oracle: the recording
//! build counts and orders nodes as they do.
#![cfg(not(no_oracle))]

use differential::steps::{Step, step};
use plain::state::{DEPTH, INPUTS, NODES, STATE};
use plain::{Instruction, Operand};

const FRESH: [u64; STATE] = [0; STATE];

fn lift(state: &[u64; STATE], name: &str, operands: &[Operand]) -> Step {
    step(state, &Instruction::new(16, name.as_bytes(), operands))
}

fn place(text: &str) -> Operand {
    Operand::register(text.as_bytes())
}

fn memory(width: u16) -> Operand {
    Operand::memory(width, true, 9, 0)
}

#[test]
fn p1_fld1_and_the_listing() {
    let one = lift(&FRESH, "fld1", &[]);
    assert_eq!(one.nodes, [[6, 0x8000_0000_0000_0000, 0x1fff, 79]]);
    let negated = lift(&one.state, "fchs", &[]);
    assert_eq!(negated.nodes, [[6, 0, 16384, 79], [8, 0, 1, 0]]);
    assert_eq!(negated.state[0], 2);
    assert_eq!(negated.state[DEPTH], 1);
}

#[test]
fn p6_faddp_from_nothing() {
    let sum = lift(&FRESH, "faddp", &[]);
    let expected = [
        [1, 0, 79, 0],
        [1, 1, 79, 0],
        [25, 1, 0, 3904],
        [25, 0, 0, 3904],
        [16, 2, 3, 0],
        [26, 4, 0, 0],
    ];
    assert_eq!(sum.nodes, expected);
    assert_eq!((sum.answer, sum.state[DEPTH]), (0, 1));
}

#[test]
fn p7_fld_of_the_last_place() {
    let copied = lift(&FRESH, "fld", &[place("st(7)")]);
    assert_eq!((copied.answer, copied.detail), (2, 0));
    assert_eq!(copied.nodes.len(), 8);
    assert_eq!((copied.state[DEPTH], copied.state[INPUTS]), (0, 8));
    assert_eq!(copied.statements, [[6, 2, 16, 0]]);
}

#[test]
fn p8_p9_fist_and_fistp_at_64() {
    let declined = lift(&FRESH, "fist", &[memory(64)]);
    assert_eq!((declined.answer, declined.detail), (1, 25));
    assert_eq!(declined.statements, [[6, 1, 16, 25]]);
    assert_eq!(lift(&FRESH, "fistp", &[memory(64)]).answer, 0);
}

#[test]
fn p10_fcomi() {
    let compared = lift(&FRESH, "fcomi", &[place("st(0)"), place("st(1)")]);
    assert_eq!((compared.nodes.len(), compared.statements.len()), (13, 5));
}

#[test]
fn p11_fcom() {
    let compared = lift(&FRESH, "fcom", &[place("st(1)")]);
    assert_eq!((compared.nodes.len(), compared.statements.len()), (22, 1));
}

#[test]
fn p12_fld_at_80() {
    let loaded = lift(&FRESH, "fld", &[memory(80)]);
    assert_eq!((loaded.nodes.len(), loaded.statements.len()), (18, 1));
    assert_eq!(loaded.statements, [[1, 0, 9, 80]]);
    let mut full = FRESH;
    for _ in 0..8 {
        full = lift(&full, "fldz", &[]).state;
    }
    let over = lift(&full, "fld", &[memory(80)]);
    assert_eq!((over.answer, over.nodes.len()), (2, 18));
    assert_eq!(over.statements, [[1, 8, 9, 80], [6, 2, 16, 0]]);
    assert_eq!((over.state[DEPTH], over.state[NODES]), (0, 26));
}
