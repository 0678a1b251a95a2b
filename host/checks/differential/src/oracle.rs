//! The Rust's answers: an instruction (the manual, section 2) is handed
//! to `x87.rs` as r2SMT's own.

use plain::Instruction;
use r2smt_common::Address;
use r2smt_common::program::{self, Memory, OperandKind};

/// Whether the r2SMT sources were at hand when this was built.
#[must_use]
pub fn at_hand() -> bool {
    true
}

/// The form's words, or `None` where `classify` declines.
#[must_use]
pub fn classify(insn: &Instruction) -> Option<[u64; 8]> {
    r2smt_slicer::classify(&spelt(insn))
}

/// The effect's answers, or `None` where `x87_effect` declines.
#[must_use]
pub fn effect(insn: &Instruction) -> Option<[bool; 7]> {
    r2smt_slicer::effect(&spelt(insn))
}

/// The instruction as r2SMT spells it. It is in the domain: not refused.
#[must_use]
pub fn spelt(insn: &Instruction) -> program::Instruction {
    program::Instruction {
        address: Address(insn.address),
        mnemonic: text(insn.mnemonic.used()),
        operands: insn.used().iter().map(operand).collect(),
    }
}

fn operand(operand: &plain::Operand) -> program::Operand {
    let (kind, raw) = match operand.kind {
        plain::REGISTER => (OperandKind::Register, text(operand.text.used())),
        plain::MEMORY => (OperandKind::Memory, memory(operand).spelled()),
        _ => (OperandKind::Other, "other".to_string()),
    };
    program::Operand { kind, raw }
}

fn memory(operand: &plain::Operand) -> Memory {
    Memory {
        width: operand.width,
        known: operand.known == 1,
        address: operand.address,
        slot: operand.slot,
    }
}

fn text(bytes: &[u8]) -> String {
    assert!(bytes.is_ascii(), "the domain is ASCII");
    String::from_utf8_lossy(bytes).into_owned()
}
