//! Stand-in for the parts of `lift.rs` and `simd.rs` that `x87.rs` calls.
//!
//! Each method does what its namesake does for an x86 lift, with numbers
//! in place of address expressions, names of stack slots, and the write
//! of `ax` into its parent register.

use r2smt_common::Address;
use r2smt_ir::expr::{Expr, Var};
use r2smt_ir::memory;
use r2smt_ir::program::{Instruction, Memory, Operand, OperandKind};
use r2smt_ir::stmt::IrStmt;

use x87::{X87Stack, probe};

include!(concat!(env!("OUT_DIR"), "/x87_module.rs"));

/// The state of one lift.
struct LiftCtx {
    stmts: Vec<IrStmt>,
    temp_counter: u32,
    cur_addr: Address,
    x87: X87Stack,
}

impl LiftCtx {
    fn new_temp(&mut self, width: u16) -> Var {
        let name = format!("t_{:x}_{}", self.cur_addr.0, self.temp_counter);
        self.temp_counter += 1;
        Var::new(name, width)
    }

    /// Load a memory operand into a temporary, or into the variable of
    /// its stack slot.
    fn read_operand_lowered(&mut self, op: &Operand, width: u16) -> Expr {
        let memory = known_memory(op).expect("classify lets only known addresses through");
        let dst = match memory.slot {
            0 => self.new_temp(width),
            slot => Var::new(format!("stk_{slot}"), width),
        };
        let loaded = Expr::var(dst.name.clone(), width);
        self.stmts
            .push(memory::load(dst, &loaded, memory.address, width));
        loaded
    }

    fn assign(&mut self, dst: Var, src: Expr) {
        self.stmts.push(IrStmt::Assign { dst, src });
    }

    fn set_flag(&mut self, name: &str, src: Expr) {
        self.assign(Var::new(name, 1), src);
    }

    /// Write `ax`, the one register that `x87.rs` writes, or memory.
    fn write_dst(&mut self, op: &Operand, value: Expr, width: u16) -> bool {
        if op.kind == OperandKind::Register {
            self.assign(Var::new("ax", width), value);
            return true;
        }
        let Some(memory) = known_memory(op) else {
            return false;
        };
        self.stmts.push(memory::store(memory.address, value, width));
        true
    }
}

/// The facts of a memory operand whose address can be built.
fn known_memory(op: &Operand) -> Option<Memory> {
    if op.kind != OperandKind::Memory {
        return None;
    }
    Memory::of(&op.raw).filter(|memory| memory.known)
}

pub(crate) fn x86_memory_modellable(op: &Operand) -> bool {
    known_memory(op).is_some()
}

/// Exponent and significand bits of the IEEE format of that width.
pub(crate) fn fp_sort_bits_checked(width: u16) -> Option<(u16, u16)> {
    Some(match width {
        16 => (5, 11),
        32 => (8, 24),
        64 => (11, 53),
        _ => return None,
    })
}

/// The form of `insn` as eight words (the manual, section 9), or `None`
/// where `classify` declines.
#[must_use]
pub fn classify(insn: &Instruction) -> Option<[u64; 8]> {
    probe::form_words(insn)
}

/// What `insn` touches, as seven answers (the manual, section 2), or
/// `None` where `x87_effect` declines.
#[must_use]
pub fn effect(insn: &Instruction) -> Option<[bool; 7]> {
    probe::effect_flags(insn)
}

/// One lift, instruction by instruction.
pub struct Lifter(LiftCtx);

impl Lifter {
    /// A lift that begins with these stack slots, the top first, and
    /// these counts of inputs and temporaries.
    #[must_use]
    pub fn new(slots: Vec<Expr>, inputs: u32, temporaries: u32) -> Self {
        Self(LiftCtx {
            stmts: Vec::new(),
            temp_counter: temporaries,
            cur_addr: Address(0),
            x87: probe::stack(slots, inputs),
        })
    }

    /// A lift from nothing.
    #[must_use]
    pub fn fresh() -> Self {
        Self::new(Vec::new(), 0, 0)
    }

    /// Lift one instruction.
    pub fn lift(&mut self, insn: &Instruction) {
        self.0.cur_addr = insn.address;
        self.0.lift_instruction_x87(insn);
    }

    /// The stack, the top first.
    #[must_use]
    pub fn slots(&self) -> Vec<&Expr> {
        probe::slots(&self.0.x87)
    }

    /// How many free inputs were named.
    #[must_use]
    pub fn inputs(&self) -> u32 {
        probe::inputs(&self.0.x87)
    }

    /// How many temporaries were named.
    #[must_use]
    pub fn temporaries(&self) -> u32 {
        self.0.temp_counter
    }

    /// The statements so far.
    #[must_use]
    pub fn statements(&self) -> &[IrStmt] {
        &self.0.stmts
    }
}
