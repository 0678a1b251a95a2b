//! The stored samples: instructions and records with their answers, for
//! the tests that have no Rust at hand.
//!
//! `instructions.bin` has rows of 250 bytes: the 177 of an instruction,
//! the answer, eight form words of eight bytes, low byte first, seven
//! bytes of its effect, and the detail of a decline.
//!
//! `records.bin` has rows of: input length, start place (two bytes each,
//! low first), the answer, the next or offending place (two bytes), one
//! byte whether a record was read, the 177 bytes of the instruction
//! (zeros where none was read), then the input.

use std::collections::BTreeMap;

use plain::{DETAILS, FLAT, Instruction, Operand, Outcome, read};

use crate::expect;
use crate::inputs::{Input, batch};
use crate::instructions::{Grid, fill_unused, put_out_of_range};
use crate::names::NAMES;
use crate::operands;
use crate::oracle;
use crate::records::told;
use crate::rng::Rng;

/// Bytes of a row of `instructions.bin`.
pub const ROW: usize = FLAT + 1 + 8 * 8 + 7 + 1;
/// Bytes of a row of `records.bin` before its input.
pub const HEAD: usize = 8 + FLAT;

const SEED: u64 = 87;
/// Declined operand lists of each name with each detail.
const DECLINES: usize = 5;
/// Operand lists of each name that is none of the 56.
const NEAR: usize = 3;
/// Instructions out of range.
const REFUSED: usize = 600;
/// Rows of `records.bin`.
const RECORDS: usize = 1200;

/// The content of `instructions.bin`.
#[must_use]
pub fn instructions() -> Vec<u8> {
    let mut rng = Rng::new(SEED);
    let mut chosen = Vec::new();
    for name in NAMES {
        chosen.extend(of_name(name.as_bytes(), &mut rng));
    }
    chosen.extend(near_misses(&mut rng));
    chosen.extend(out_of_range(&mut rng));
    let flats = chosen.iter().map(Instruction::to_flat);
    let inside = flats.filter(|flat| !expect::blanks_around_ax(flat));
    inside.flat_map(|flat| instruction_row(&flat)).collect()
}

/// One name: every form that it can take, in its plainest and in another
/// spelling, and some operand lists that decline.
fn of_name(name: &[u8], rng: &mut Rng) -> Vec<Instruction> {
    let mut forms: BTreeMap<[u64; 8], (Instruction, Instruction)> = BTreeMap::new();
    let mut declined = Vec::new();
    for given in operand_lists() {
        let insn = Instruction::new(rng.word(), name, &given);
        match oracle::classify(&insn) {
            Some(words) => {
                let entry = forms.entry(words).or_insert((insn, insn));
                entry.1 = insn;
            }
            None => declined.push(insn),
        }
    }
    let mut chosen = Vec::new();
    for (plainest, mut other) in forms.into_values() {
        fill_unused(&mut other, rng);
        chosen.extend([plainest, other]);
    }
    for _ in 0..DECLINES {
        chosen.extend(one_of_each(&declined, rng));
    }
    chosen
}

/// Of these instructions one with each detail that they have.
fn one_of_each(declined: &[Instruction], rng: &mut Rng) -> Vec<Instruction> {
    let mut chosen = Vec::new();
    for detail in DETAILS {
        let alike = declined.iter().filter(|insn| plain::why(insn) == detail);
        let alike: Vec<&Instruction> = alike.collect();
        if !alike.is_empty() {
            let mut insn = **rng.pick(&alike);
            fill_unused(&mut insn, rng);
            chosen.push(insn);
        }
    }
    chosen
}

/// Declined instructions of a name, one with each detail that it can have.
pub fn declines(name: &str, rng: &mut Rng) -> Vec<Instruction> {
    let lists = operand_lists();
    let insns = lists
        .iter()
        .map(|given| Instruction::new(4096, name.as_bytes(), given));
    let declined: Vec<Instruction> = insns.filter(|i| oracle::classify(i).is_none()).collect();
    one_of_each(&declined, rng)
}

/// Every list of up to two operands, and some of three.
fn operand_lists() -> Vec<Vec<Operand>> {
    let all = operands::all();
    let mut lists = vec![Vec::new()];
    lists.extend(all.iter().map(|&a| vec![a]));
    for &a in &all {
        lists.extend(all.iter().map(|&b| vec![a, b]));
    }
    lists.extend(operands::few().iter().map(|&a| vec![a; 3]));
    lists
}

/// The names that are none of the 56, each with some operands.
fn near_misses(rng: &mut Rng) -> Vec<Instruction> {
    let lists = operand_lists();
    let names = crate::names::all();
    let mut chosen = Vec::new();
    for name in &names[NAMES.len()..] {
        let one = |given: &[Operand]| Instruction::new(0, name, given);
        chosen.push(one(&[]));
        for _ in 1..NEAR {
            chosen.push(one(rng.pick(&lists).as_slice()));
        }
        chosen.push(one(&[Operand::register(b"st(2)")]));
    }
    chosen
}

/// Instructions with one to three things out of range.
fn out_of_range(rng: &mut Rng) -> Vec<Instruction> {
    let grid = Grid::default();
    let mut chosen = Vec::new();
    for _ in 0..REFUSED {
        let mut insn = grid.random(rng);
        for _ in 0..rng.between(1, 3) {
            put_out_of_range(&mut insn, rng);
        }
        chosen.push(insn);
    }
    chosen
}

fn instruction_row(flat: &[u8; FLAT]) -> Vec<u8> {
    let form = expect::classify(flat, 8);
    let effect = expect::effect(flat, 7);
    let why = expect::why(flat, 1);
    let numbers = [form.number, effect.number, why.number];
    assert_eq!(numbers, [form.number; 3], "one answer for all calls");
    let mut row = flat.to_vec();
    row.push(u8::try_from(form.number).expect("a small number"));
    row.extend(form.words[..8].iter().flat_map(|w| w.to_le_bytes()));
    row.extend(effect.words[..7].iter().map(|&w| u8::from(w == 1)));
    row.push(u8::try_from(why.words[0]).expect("a small number"));
    row
}

/// The content of `records.bin`.
#[must_use]
pub fn records() -> Vec<u8> {
    let grid = Grid::default();
    let mut rng = Rng::new(SEED);
    let mut chosen: Vec<Input> = shortest().collect();
    while chosen.len() < RECORDS {
        let inputs = batch(&grid, &mut rng);
        chosen.extend(inputs.iter().find(|input| ends(input)).cloned());
        for _ in 0..RECORDS / 40 {
            let input = rng.pick(&inputs);
            if u16::try_from(input.at).is_ok() {
                chosen.push(input.clone());
            }
        }
    }
    chosen.iter().flat_map(record_row).collect()
}

/// Marks, whole and not, and what may stand behind them.
fn shortest() -> impl Iterator<Item = Input> {
    let inputs: [&[u8]; 9] = [
        &[],
        &[0x87],
        &[0x86],
        &[0x49, 0x87],
        &[0x87, 0x49],
        &[0x87, 0x45],
        &[0x87, 0x44],
        &[0x87, 0x45, 0x87],
        &[0x87, 0x45, 0x87, 0x45],
    ];
    inputs.into_iter().flat_map(|bytes| {
        (0..=bytes.len() + 1).map(|at| Input {
            bytes: bytes.to_vec(),
            at,
        })
    })
}

fn ends(input: &Input) -> bool {
    matches!(read(&input.bytes, input.at), Outcome::End { .. })
}

fn record_row(input: &Input) -> Vec<u8> {
    let (number, place, flat) = told(&read(&input.bytes, input.at));
    let mut row = Vec::new();
    row.extend(two_bytes(input.bytes.len()));
    row.extend(two_bytes(input.at));
    row.push(u8::try_from(number).expect("a small number"));
    row.extend(two_bytes(place));
    row.push(flat.is_some().into());
    row.extend(flat.unwrap_or([0; FLAT]));
    row.extend(&input.bytes);
    row
}

fn two_bytes(number: usize) -> [u8; 2] {
    u16::try_from(number).expect("two bytes").to_le_bytes()
}
