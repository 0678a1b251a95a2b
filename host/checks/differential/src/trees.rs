//! The real trees: the unchanged build of `x87.rs` over r2SMT's own
//! `Expr`, lifted beside the node list, and each tree compared with what
//! the list spells.
//!
//! A tree doubles with each `fadd st(0), st(0)`, while the list grows by
//! four rows. Trees are followed up to a bound; beyond it they are left
//! out until the stack is next cleared.

use plain::Instruction;
use plain::state::{DEPTH, INPUTS, NODES, STATE, STATEMENTS, TEMPORARIES};
use r2smt_ir::expr::{Expr, RoundingMode, Var};
use r2smt_ir::memory;
use r2smt_ir::stmt::IrStmt;
use r2smt_slicer::Lifter;

use crate::oracle::spelt;
use crate::steps::row;

/// Trees of more nodes than this are left out.
const BOUND: u64 = 2_000;

/// The unchanged build, beside a node list.
pub struct Follower {
    /// The lift, or none while a tree is too large.
    lifter: Option<Lifter>,
    /// How many statements were made before this lift began.
    first_statement: u64,
    /// The size of each node's tree.
    sizes: Vec<u64>,
    /// How many instructions were followed, and how many were not.
    pub followed: u64,
    pub left_out: u64,
}

impl Default for Follower {
    fn default() -> Self {
        Self {
            lifter: Some(Lifter::fresh()),
            first_statement: 0,
            sizes: Vec::new(),
            followed: 0,
            left_out: 0,
        }
    }
}

impl Follower {
    /// Follow one instruction that led from one state to the next, and
    /// compare. The lists are those after it.
    ///
    /// # Errors
    /// Where a tree differs, with what it is.
    pub fn follow(
        &mut self,
        insn: &Instruction,
        before: &[u64; STATE],
        after: &[u64; STATE],
        lists: (&[u64], &[u64]),
    ) -> Result<(), String> {
        let largest = self.grow(lists.0, after[NODES]);
        if self.lifter.is_none() && before[DEPTH] == 0 {
            self.begin(before);
        }
        if largest > BOUND {
            self.lifter = None;
        }
        let Some(lifter) = &mut self.lifter else {
            self.left_out += 1;
            return Ok(());
        };
        self.followed += 1;
        lifter.lift(&spelt(insn));
        let changed = |i: usize| i as u64 >= before[DEPTH] || before[i] != after[i];
        same_slots(lifter, after, lists.0, changed)?;
        let from = before[STATEMENTS] - self.first_statement;
        let detail = plain::why(insn).into();
        same_statements(lifter, from, before[STATEMENTS], lists, detail)
    }

    /// Compare every slot of the stack.
    ///
    /// # Errors
    /// Where a tree differs, with what it is.
    pub fn finish(&self, state: &[u64; STATE], nodes: &[u64]) -> Result<(), String> {
        match &self.lifter {
            Some(lifter) => same_slots(lifter, state, nodes, |_| true),
            None => Ok(()),
        }
    }

    /// Begin anew over an empty stack, with the counts of this state.
    fn begin(&mut self, state: &[u64; STATE]) {
        let count = |at: usize| u32::try_from(state[at]).expect("a small count");
        let lifter = Lifter::new(Vec::new(), count(INPUTS), count(TEMPORARIES));
        self.lifter = Some(lifter);
        self.first_statement = state[STATEMENTS];
    }

    /// Take in the rows up to `count`, and give the size of the largest
    /// new tree.
    fn grow(&mut self, nodes: &[u64], count: u64) -> u64 {
        let mut largest = 0;
        while (self.sizes.len() as u64) < count {
            let next = row(nodes, self.sizes.len() as u64);
            let [kind, a, b, c] = next.expect("the list has the counted rows");
            let operands = operands(kind, [a, b, c]);
            let size = operands.iter().fold(1_u64, |sum, &node| {
                let of = usize::try_from(node).ok().and_then(|n| self.sizes.get(n));
                sum.saturating_add(of.copied().unwrap_or(1))
            });
            largest = largest.max(size);
            self.sizes.push(size);
        }
        largest
    }
}

/// Which fields of a row name nodes.
fn operands(kind: u64, fields: [u64; 3]) -> Vec<u64> {
    let count = match kind {
        7..=11 | 15..=21 => 2,
        12 | 14 | 22..=29 => 1,
        13 => 3,
        _ => 0,
    };
    fields[..count].to_vec()
}

/// The slots, as trees and as numbers.
fn same_slots(
    lifter: &Lifter,
    state: &[u64; STATE],
    nodes: &[u64],
    which: impl Fn(usize) -> bool,
) -> Result<(), String> {
    let slots = lifter.slots();
    if slots.len() as u64 != state[DEPTH] {
        return Err(format!("depth {} as trees", slots.len()));
    }
    for (i, tree) in slots.iter().enumerate() {
        if which(i) && !same(tree, state[i], nodes) {
            return Err(format!("slot {i}, node {} is the tree {tree}", state[i]));
        }
    }
    Ok(())
}

/// The statements from `from` on, which have the numbers from `number` on
/// in the list; one that declines has this detail.
fn same_statements(
    lifter: &Lifter,
    from: u64,
    number: u64,
    lists: (&[u64], &[u64]),
    detail: u64,
) -> Result<(), String> {
    let from = usize::try_from(from).expect("in memory");
    for (i, stmt) in lifter.statements()[from..].iter().enumerate() {
        let words = row(lists.1, number + i as u64);
        if !words.is_some_and(|words| same_statement(stmt, words, lists.0, detail)) {
            return Err(format!("statement {words:?} is {stmt}"));
        }
    }
    Ok(())
}

fn same_statement(stmt: &IrStmt, words: [u64; 4], nodes: &[u64], detail: u64) -> bool {
    let [kind, a, b, c] = words;
    match stmt {
        IrStmt::LoadMem { dst, address, bits } => {
            kind == 1
                && row(nodes, a).is_some_and(|row| same_variable(dst, row))
                && is_at(address, b)
                && c == (*bits).into()
        }
        IrStmt::StoreMem {
            address,
            value,
            bits,
        } => kind == 2 && is_at(address, a) && same(value, b, nodes) && c == (*bits).into(),
        IrStmt::Assign { dst, src } => match (dst.name.as_str(), dst.bits) {
            ("fsw", 16) => kind == 3 && same(src, a, nodes) && (b, c) == (0, 0),
            ("ax", 16) => kind == 5 && same(src, a, nodes) && (b, c) == (0, 0),
            (flag, 1) => {
                kind == 4 && FLAGS.get(a as usize) == Some(&flag) && same(src, b, nodes) && c == 0
            }
            _ => false,
        },
        IrStmt::Unsupported { comment, .. } => {
            let reasons = ["unmodelled x87 form", "x87 stack overflow"];
            let reason = a.checked_sub(1).and_then(|i| reasons.get(i as usize));
            kind == 6 && reason.is_some_and(|r| *comment == format!("{r} at {b:#x}")) && c == detail
        }
        IrStmt::Nop => false,
    }
}

/// The flags by their numbers (the manual, section 4).
const FLAGS: [&str; 5] = ["CF", "PF", "ZF", "OF", "SF"];

fn is_at(address: &Expr, number: u64) -> bool {
    u32::try_from(number).is_ok_and(|n| *address == memory::at(n))
}

/// Whether a tree is what the node of that number spells.
fn same(tree: &Expr, node: u64, nodes: &[u64]) -> bool {
    let Some([kind, a, b, c]) = row(nodes, node) else {
        return false;
    };
    let one = |x: &Expr| same(x, a, nodes);
    let two = |x: &Expr, y: &Expr| same(x, a, nodes) && same(y, b, nodes);
    match tree {
        Expr::Var(var) => same_variable(var, [kind, a, b, c]),
        Expr::Const { value, bits } => {
            kind == 6 && *value == u128::from(b) << 64 | u128::from(a) && c == (*bits).into()
        }
        Expr::And(x, y) => (kind, c) == (7, 0) && two(x, y),
        Expr::Xor(x, y) => (kind, c) == (8, 0) && two(x, y),
        Expr::Eq(x, y) => (kind, c) == (9, 0) && two(x, y),
        Expr::BoolAnd(x, y) => (kind, c) == (10, 0) && two(x, y),
        Expr::BoolOr(x, y) => (kind, c) == (11, 0) && two(x, y),
        Expr::BoolNot(x) => (kind, b, c) == (12, 0, 0) && one(x),
        Expr::Ite {
            cond,
            then_expr,
            else_expr,
        } => kind == 13 && two(cond, then_expr) && same(else_expr, c, nodes),
        Expr::Extract { src, hi, lo } => {
            (kind, b, c) == (14, (*hi).into(), (*lo).into()) && one(src)
        }
        Expr::Concat { high, low } => (kind, c) == (15, 0) && two(high, low),
        Expr::FAdd(x, y, rm) => (kind, c) == (16, rounding(*rm)) && two(x, y),
        Expr::FSub(x, y, rm) => (kind, c) == (17, rounding(*rm)) && two(x, y),
        Expr::FMul(x, y, rm) => (kind, c) == (18, rounding(*rm)) && two(x, y),
        Expr::FDiv(x, y, rm) => (kind, c) == (19, rounding(*rm)) && two(x, y),
        Expr::FEq(x, y) => (kind, c) == (20, 0) && two(x, y),
        Expr::FLt(x, y) => (kind, c) == (21, 0) && two(x, y),
        Expr::FIsNaN(x) => (kind, b, c) == (22, 0, 0) && one(x),
        Expr::FSqrt(x, rm) => (kind, b, c) == (23, rounding(*rm), 0) && one(x),
        Expr::FRoundToIntegral(x, rm) => (kind, b, c) == (24, rounding(*rm), 0) && one(x),
        Expr::BvToFp { src, ebits, sbits } => {
            (kind, b, c) == (25, 0, format(*ebits, *sbits)) && one(src)
        }
        Expr::FpToIeeeBv(x) => (kind, b, c) == (26, 0, 0) && one(x),
        Expr::FpToSbv { src, rm, bits } => {
            (kind, b, c) == (27, rounding(*rm), (*bits).into()) && one(src)
        }
        Expr::SbvToFp {
            src,
            rm,
            ebits,
            sbits,
        } => (kind, b, c) == (28, rounding(*rm), format(*ebits, *sbits)) && one(src),
        Expr::FpToFp {
            src,
            rm,
            ebits,
            sbits,
        } => (kind, b, c) == (29, rounding(*rm), format(*ebits, *sbits)) && one(src),
        _ => false,
    }
}

/// Whether a variable is what a row names.
fn same_variable(var: &Var, [kind, a, b, c]: [u64; 4]) -> bool {
    let named = |prefix: &str| number_behind(&var.name, prefix) == Some(a);
    let sized = b == var.bits.into() && c == 0;
    match kind {
        1 => named("x87_in_") && sized,
        2 => is_temporary(&var.name, a) && sized,
        3 => named("stk_") && sized,
        4 => var.name == "fsw" && var.bits == 16 && (a, b, c) == (0, 0, 0),
        5 => {
            FLAGS[..3].get(a as usize) == Some(&var.name.as_str())
                && var.bits == 1
                && (b, c) == (0, 0)
        }
        _ => false,
    }
}

fn number_behind(name: &str, prefix: &str) -> Option<u64> {
    name.strip_prefix(prefix)?.parse().ok()
}

/// Temporaries compare by order of appearance: the last part of the name.
fn is_temporary(name: &str, number: u64) -> bool {
    let parts = name.strip_prefix("t_").and_then(|n| n.split_once('_'));
    parts.is_some_and(|(_, n)| n.parse() == Ok(number))
}

fn rounding(rm: RoundingMode) -> u64 {
    match rm {
        RoundingMode::NearestTiesEven => 0,
        RoundingMode::TowardZero => 1,
        _ => u64::MAX,
    }
}

fn format(ebits: u16, sbits: u16) -> u64 {
    u64::from(ebits) * 256 + u64::from(sbits)
}
