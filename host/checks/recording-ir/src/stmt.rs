//! The statements, and the four words of each (the manual, section 4).

use r2smt_common::Address;

use crate::expr::{Expr, Var};
use crate::rows::Row;

/// A statement over node numbers.
#[derive(Debug, Clone, PartialEq, Eq)]
pub enum IrStmt {
    Assign {
        dst: Var,
        src: Expr,
    },
    LoadMem {
        loaded: Expr,
        address: u32,
        bits: u16,
    },
    StoreMem {
        address: u32,
        value: Expr,
        bits: u16,
    },
    Unsupported {
        mnemonic: String,
        comment: String,
    },
}

impl IrStmt {
    /// Kind, a, b, c.
    #[must_use]
    pub fn words(&self) -> Row {
        match self {
            Self::LoadMem {
                loaded,
                address,
                bits,
            } => [1, loaded.number(), (*address).into(), (*bits).into()],
            Self::StoreMem {
                address,
                value,
                bits,
            } => [2, (*address).into(), value.number(), (*bits).into()],
            Self::Assign { dst, src } => assigned(&dst.name, src.number()),
            Self::Unsupported { comment, .. } => declined(comment),
        }
    }
}

/// An assignment to the status word, to `ax` or to a flag.
fn assigned(name: &str, node: u64) -> Row {
    match name {
        "fsw" => [3, node, 0, 0],
        "CF" => [4, 0, node, 0],
        "PF" => [4, 1, node, 0],
        "ZF" => [4, 2, node, 0],
        "OF" => [4, 3, node, 0],
        "SF" => [4, 4, node, 0],
        "ax" => [5, node, 0, 0],
        other => panic!("the manual has no statement that assigns {other}"),
    }
}

/// A decline, from the reason and the address that its comment names.
fn declined(comment: &str) -> Row {
    let (reason, address) = comment.split_once(" at ").expect("a reason at an address");
    let answer = match reason {
        "unmodelled x87 form" => 1,
        "x87 stack overflow" => 2,
        other => panic!("the manual has no number for '{other}'"),
    };
    let address = Address::printed(address).expect("an address");
    [6, answer, address.0, 0]
}
