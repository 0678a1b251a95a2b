//! The rules of the manual (`docs/MANUAL.md`) said plainly in Rust: what
//! an instruction is and how it lies in bytes, which instructions are
//! refused, why one is declined, how records are read, which states are
//! valid, which nodes have a sort, which given values fit, what an 80-bit
//! image holds, and how formulas are written as text and read back. Written
//! for being read, not for speed.

pub mod every_text;
mod flat;
pub mod image;
mod reader;
mod refusals;
pub mod smt;
pub mod sorts;
pub mod state;
pub mod values;
mod why;

pub use flat::{FLAT, Instruction, OPERANDS, Operand, TEXT, Text};
pub use reader::{Outcome, read, record};
pub use refusals::refusal;
pub use why::why;

/// Kinds of an operand.
pub const REGISTER: u8 = 0;
pub const MEMORY: u8 = 1;
pub const OTHER: u8 = 2;

/// Numbers that calls give back.
pub const MODELLED: u32 = 0;
pub const DECLINED: u32 = 1;
pub const OVERFLOWED: u32 = 2;
pub const BAD_TEXT: u32 = 3;
pub const BAD_SHAPE: u32 = 4;
pub const BAD_STATE: u32 = 5;
pub const NO_NODES: u32 = 6;
pub const NO_STATEMENTS: u32 = 7;
pub const NO_SORT: u32 = 8;
pub const TOO_WIDE: u32 = 9;
pub const TOO_SHORT: u32 = 10;
pub const WRONG_MARK: u32 = 11;
pub const ENDS_EARLY: u32 = 12;
pub const INPUT_TOO_LONG: u32 = 13;
pub const NO_ROOT: u32 = 31;
pub const TEXT_TOO_LONG: u32 = 32;
pub const NO_TEXT: u32 = 41;

/// Details of a decline, in the order in which they are tested.
pub const UNKNOWN_NAME: u32 = 21;
pub const WRONG_COUNT: u32 = 22;
pub const WRONG_KIND: u32 = 23;
pub const UNKNOWN_ADDRESS: u32 = 24;
pub const WRONG_WIDTH: u32 = 25;

/// All details.
pub const DETAILS: [u32; 5] = [
    UNKNOWN_NAME,
    WRONG_COUNT,
    WRONG_KIND,
    UNKNOWN_ADDRESS,
    WRONG_WIDTH,
];
