//! A proved x87 lifter, for a decoder of your own: decoded operands in,
//! formulas out.
//!
//! The lifter is a static library whose every function is proved to meet
//! its contract; this crate is its face in Rust. Nothing here is unsafe,
//! and no input makes a call panic: a text that is too long or a fourth
//! operand comes back as a numbered [`Refusal`], like everything else that
//! the library refuses.
//!
//! - An [`Instruction`] has a name and at most three decoded operands.
//!   [`classify`] says what it does to the register stack, its [`Form`];
//!   [`effect`] says what it touches (section 2).
//! - A [`Lifter`] turns one instruction after the other into two lists and
//!   a state. [`Nodes`] are formulas: each [`Node`] is one operation on
//!   earlier nodes, which it names by their numbers. [`Statements`] are
//!   what is loaded, stored or set to such a node, in order (section 4).
//!   The [`State`] says which node stands at each known place of the stack
//!   (section 3).
//! - An instruction that is not modelled is declined: a statement says
//!   [`Why`], and the stack is forgotten. [`why`] says beforehand which
//!   [`Detail`] of its form is not modelled.
//! - A node has a [`Sort`]: bits of a width, or a float. [`check`] finds
//!   the first node that has none (section 5); [`evaluate`] gives values,
//!   and [`image`] reads and writes the ten bytes of an 80-bit float in
//!   memory (section 6). [`smt_lib`] writes formulas as text for a solver,
//!   and reads it.
//! - A [`Refusal`] has a number (section 7).
//! - [`read_record`] and [`write_record`] are for the bytes that the
//!   program `x87lift` reads (section 8).
//!
//! The sections are those of the manual, `docs/MANUAL.md` of the
//! repository, which says all of this in full.
//!
//! ```
//! use sleetgate::{Instruction, Lifted, Lifter, Node, Operand, Place, Statement};
//!
//! // fld dword [a]; fadd dword [b]; fstp dword [c]
//! let at = |number| Operand::memory(32, Place::Address(number));
//! let mut lifter = Lifter::default();
//! for (address, name, operand) in [(0x10, "fld", at(1)), (0x13, "fadd", at(2)), (0x16, "fstp", at(3))] {
//!     let insn = Instruction::new(address, name, [operand]);
//!     assert_eq!(lifter.lift(&insn), Ok(Lifted::Modelled));
//! }
//!
//! // One store, of the sum rounded to 32 bits; the stack is empty again.
//! let stored = lifter.statements().iter().last();
//! let Some(Statement::Store { address: 3, node, bits: 32 }) = stored else { panic!() };
//! assert!(matches!(lifter.nodes().get(node), Some(Node::FpToIeeeBv(_))));
//! assert_eq!(lifter.stack(), []);
//! ```
//!
//! The library has to be built before the first call (`bash
//! host/tools/library.sh` at the root of the repository); where it is not,
//! each call panics and says so.

#![forbid(unsafe_code)]
#![warn(missing_docs)]

mod display;
mod effect;
mod form;
mod formulas;
pub mod image;
mod instruction;
mod lifter;
mod node;
mod record;
mod refusal;
mod rows;
pub mod smt_lib;
mod sort;
mod statement;
mod why;

pub use effect::{Effect, effect};
pub use form::{Arith, Condition, Form, MemFormat, Source, Unary, classify};
pub use formulas::{check, evaluate};
pub use instruction::{Instruction, MOST_OPERANDS, Operand, Place, TEXT};
pub use lifter::{Lifted, Lifter, State};
pub use node::{Flag, Format, Node, Nodes, Rounding};
pub use record::{Item, MOST_BYTES, read_record, write_end, write_record};
pub use refusal::{Refusal, RefusedRecord};
pub use rows::Iter;
pub use sort::Sort;
pub use statement::{Statement, Statements};
pub use why::{Detail, Why, why};
