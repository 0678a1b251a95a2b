//! Stand-in for `r2smt_ir::program`: an instruction as `x87.rs` sees it.
//!
//! A memory operand carries what the rest of r2SMT would have decoded
//! from its text: the width of the access, whether the address can be
//! built, and two numbers in place of the address expression and of the
//! stack slot's name. Its `raw` spells them as `mem:W:K:A:S`.

use crate::Address;

/// What an operand is.
#[derive(Debug, Clone, Copy, PartialEq, Eq)]
pub enum OperandKind {
    Register,
    Memory,
    Other,
}

/// An operand with its text.
#[derive(Debug, Clone, PartialEq, Eq)]
pub struct Operand {
    pub kind: OperandKind,
    pub raw: String,
}

/// An instruction with its operands.
#[derive(Debug, Clone, PartialEq, Eq)]
pub struct Instruction {
    pub address: Address,
    pub mnemonic: String,
    pub operands: Vec<Operand>,
}

/// The decoded facts of a memory operand.
#[derive(Debug, Clone, Copy, PartialEq, Eq)]
pub struct Memory {
    /// Width of the access in bits, 0 where unknown.
    pub width: u16,
    /// Whether the address can be built.
    pub known: bool,
    /// Number in place of the address expression.
    pub address: u32,
    /// Number in place of the stack slot's name, 0 for none.
    pub slot: u32,
}

impl Memory {
    /// The spelling that `of` reads.
    #[must_use]
    pub fn spelled(self) -> String {
        let Self {
            width,
            known,
            address,
            slot,
        } = self;
        format!("mem:{width}:{}:{address}:{slot}", u8::from(known))
    }

    /// The facts that `raw` spells.
    #[must_use]
    pub fn of(raw: &str) -> Option<Self> {
        let mut fields = raw.strip_prefix("mem:")?.split(':');
        Some(Self {
            width: fields.next()?.parse().ok()?,
            known: fields.next()? == "1",
            address: fields.next()?.parse().ok()?,
            slot: fields.next()?.parse().ok()?,
        })
    }
}

#[cfg(test)]
mod tests {
    use super::Memory;

    #[test]
    fn a_spelling_is_read_back() {
        for known in [false, true] {
            let memory = Memory {
                width: 80,
                known,
                address: u32::MAX,
                slot: 7,
            };
            assert_eq!(Memory::of(&memory.spelled()), Some(memory));
        }
    }
}
