//! Which instructions are refused before anything is looked up.

use crate::{BAD_SHAPE, BAD_TEXT, Instruction, MEMORY, OPERANDS, OTHER, Operand, REGISTER, TEXT};

/// The number with which an instruction is refused: all of 4 before any
/// of 3, and only operands below the count are looked at.
#[must_use]
pub fn refusal(insn: &Instruction) -> Option<u32> {
    if usize::from(insn.count) > OPERANDS || insn.used().iter().any(out_of_range) {
        return Some(BAD_SHAPE);
    }
    let registers = insn.used().iter().filter(|o| o.kind == REGISTER);
    let mut texts = registers.map(|o| &o.text).chain([&insn.mnemonic]);
    texts
        .any(|t| usize::from(t.len) > TEXT || !t.used().is_ascii())
        .then_some(BAD_TEXT)
}

/// A kind over 2, or a memory operand's known flag over 1.
fn out_of_range(operand: &Operand) -> bool {
    operand.kind > OTHER || operand.kind == MEMORY && operand.known > 1
}
