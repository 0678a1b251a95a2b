//! A window into `x87.rs`: its private types as the numbers of the
//! manual, section 9.
//!
//! This is a child module of `x87.rs`, so it sees what is private there.
//! It computes nothing of its own.

use super::{
    ArithSrc, MemFormat, UnaryOp, X87_STACK_REGISTER, X87_STATUS_REGISTER, X87Arith, X87Condition,
    X87Form, X87Stack, classify, x87_effect,
};
use r2smt_ir::expr::{Expr, RoundingMode};
use r2smt_ir::program::Instruction;

/// The form of an instruction in eight words.
pub(crate) fn form_words(insn: &Instruction) -> Option<[u64; 8]> {
    classify(insn).map(|form| words(&form))
}

fn words(form: &X87Form) -> [u64; 8] {
    match *form {
        X87Form::PushConst(bits) => filled(&[1, low(bits), high(bits)]),
        X87Form::PushMemory { width, format } => filled(&[2, width.into(), format_number(format)]),
        X87Form::PushSlot(index) => filled(&[3, index as u64]),
        X87Form::StoreMemory {
            width,
            format,
            pop,
            rounding,
        } => filled(&[
            4,
            width.into(),
            format_number(format),
            pop.into(),
            rounding_number(rounding),
        ]),
        X87Form::StoreSlot { index, pop } => filled(&[5, index as u64, pop.into()]),
        X87Form::Arith {
            op,
            dst,
            src,
            reversed,
            pop,
        } => {
            let [kind, which, format] = source(src);
            let (reversed, pop) = (reversed.into(), pop.into());
            [6, arith(op), dst as u64, kind, which, format, reversed, pop]
        }
        X87Form::CompareStatus { src, pops } => {
            let [kind, which, format] = source(src);
            filled(&[7, kind, which, format, pops.into()])
        }
        X87Form::CompareFlags { src, pop } => filled(&[8, src as u64, pop.into()]),
        X87Form::ConditionalMove { src, condition } => {
            filled(&[9, src as u64, condition_number(condition)])
        }
        X87Form::StoreStatus => filled(&[10]),
        X87Form::Exchange(index) => filled(&[11, index as u64]),
        X87Form::Unary(op) => filled(&[12, unary(op)]),
    }
}

/// The given words, then zeros.
fn filled(first: &[u64]) -> [u64; 8] {
    let mut all = [0; 8];
    all[..first.len()].copy_from_slice(first);
    all
}

fn low(bits: u128) -> u64 {
    (bits & u128::from(u64::MAX)) as u64
}

fn high(bits: u128) -> u64 {
    (bits >> 64) as u64
}

fn format_number(format: MemFormat) -> u64 {
    match format {
        MemFormat::Float => 0,
        MemFormat::Integer => 1,
    }
}

fn rounding_number(rounding: RoundingMode) -> u64 {
    match rounding {
        RoundingMode::NearestTiesEven => 0,
        RoundingMode::TowardZero => 1,
        other => panic!("the manual has no number for {other:?}"),
    }
}

/// Kind, slot index or width, and format of a source.
fn source(src: ArithSrc) -> [u64; 3] {
    match src {
        ArithSrc::Slot(index) => [0, index as u64, 0],
        ArithSrc::Memory { width, format } => [1, width.into(), format_number(format)],
    }
}

fn arith(op: X87Arith) -> u64 {
    match op {
        X87Arith::Add => 0,
        X87Arith::Sub => 1,
        X87Arith::Mul => 2,
        X87Arith::Div => 3,
    }
}

fn condition_number(condition: X87Condition) -> u64 {
    match condition {
        X87Condition::Below => 0,
        X87Condition::Equal => 1,
        X87Condition::BelowOrEqual => 2,
        X87Condition::Unordered => 3,
        X87Condition::NotBelow => 4,
        X87Condition::NotEqual => 5,
        X87Condition::NotBelowOrEqual => 6,
        X87Condition::NotUnordered => 7,
    }
}

fn unary(op: UnaryOp) -> u64 {
    match op {
        UnaryOp::Abs => 0,
        UnaryOp::Chs => 1,
        UnaryOp::Sqrt => 2,
        UnaryOp::RoundToIntegral => 3,
    }
}

/// Defines stack, defines `fsw`, uses stack, uses `fsw`, defines flags,
/// reads flags, writes `ax`.
pub(crate) fn effect_flags(insn: &Instruction) -> Option<[bool; 7]> {
    let effect = x87_effect(insn)?;
    let (stack, status) = (&X87_STACK_REGISTER, &X87_STATUS_REGISTER);
    assert!(effect.defs.iter().all(|r| r == stack || r == status));
    assert!(effect.uses.iter().all(|r| r == stack || r == status));
    assert!(matches!(effect.register_def, None | Some("rax")));
    Some([
        effect.defs.contains(stack),
        effect.defs.contains(status),
        effect.uses.contains(stack),
        effect.uses.contains(status),
        effect.defines_flags,
        effect.reads_flags,
        effect.register_def.is_some(),
    ])
}

/// A stack of these slots, the top first.
pub(crate) fn stack(mut slots: Vec<Expr>, inputs: u32) -> X87Stack {
    slots.reverse();
    X87Stack {
        slots,
        free_inputs: inputs,
    }
}

/// The slots, the top first.
pub(crate) fn slots(stack: &X87Stack) -> Vec<&Expr> {
    stack.slots.iter().rev().collect()
}

pub(crate) fn inputs(stack: &X87Stack) -> u32 {
    stack.free_inputs
}
