//! How nodes are written.

use std::collections::BTreeMap;

use crate::sorts::{Format, Sort, Verdict, sorts};
use crate::state::ROW;
use crate::{NO_ROOT, TEXT_TOO_LONG};

/// The text of what a root needs of the first `count` nodes of a list, where
/// there is room for so many bytes.
///
/// # Errors
/// 10 where the count is over the list's room, 8 with the first node that
/// has no sort, 31 where the root is no counted node, 32 where the text does
/// not fit.
pub fn write(nodes: &[u64], count: usize, root: usize, room: usize) -> Result<String, Verdict> {
    let sorts = sorts(nodes, count)?;
    if root >= count {
        return Err(Verdict::new(NO_ROOT, 0));
    }
    let rows = &nodes.as_chunks().0[..count];
    let text = text(rows, &sorts, &needed(rows, root));
    if text.len() > room {
        return Err(Verdict::new(TEXT_TOO_LONG, 0));
    }
    Ok(text)
}

/// How many of the first fields of a row are operands.
#[must_use]
pub fn arity(kind: u64) -> usize {
    match kind {
        7..=11 | 15..=21 => 2,
        12 | 14 | 22..=29 => 1,
        13 => 3,
        _ => 0,
    }
}

/// Whether a node of this kind is declared; all others are defined.
#[must_use]
pub fn is_declared(kind: u64) -> bool {
    matches!(kind, 1..=5 | 26)
}

/// The marks of what a root needs: the root, and each operand of what is
/// needed.
#[must_use]
pub fn needed(rows: &[[u64; ROW]], root: usize) -> Vec<bool> {
    let mut marks = vec![false; rows.len()];
    marks[root] = true;
    for node in (0..=root).rev().filter(|&node| rows[node][0] > 6) {
        if marks[node] {
            for &operand in &rows[node][1..=arity(rows[node][0])] {
                marks[usize::try_from(operand).expect("an earlier node")] = true;
            }
        }
    }
    marks
}

/// The text of the marked nodes of a list: declarations, definitions and
/// assertions, each in the order of the nodes.
#[must_use]
pub fn text(rows: &[[u64; ROW]], sorts: &[Sort], marks: &[bool]) -> String {
    let list = List { rows, sorts };
    let marked: Vec<usize> = (0..rows.len()).filter(|&node| marks[node]).collect();
    let kind = |&&node: &&usize| rows[node][0];
    let declared = marked.iter().filter(|node| is_declared(kind(node)));
    let defined = marked.iter().filter(|node| !is_declared(kind(node)));
    let patterns = marked.iter().filter(|node| kind(node) == 26);
    let lines = declared.map(|&node| list.declaration(node));
    let lines = lines.chain(defined.map(|&node| list.definition(node)));
    let lines = lines.chain(patterns.map(|&node| list.assertion(node)));
    lines.collect()
}

/// The marked rows by the numbers of their nodes.
#[must_use]
pub fn marked(rows: &[[u64; ROW]], marks: &[bool]) -> BTreeMap<u64, [u64; ROW]> {
    let numbered = (0..).zip(rows).zip(marks);
    let marked = numbered.filter(|(_, mark)| **mark);
    marked.map(|((node, row), _)| (node, *row)).collect()
}

/// Rows by the numbers of their nodes, numbered from 0 on: each operand is
/// its place among them.
#[must_use]
pub fn compact(nodes: &BTreeMap<u64, [u64; ROW]>) -> Vec<[u64; ROW]> {
    let places = nodes.keys().zip(0..);
    let places: BTreeMap<u64, u64> = places.map(|(&node, place)| (node, place)).collect();
    let mut rows: Vec<[u64; ROW]> = nodes.values().copied().collect();
    for row in &mut rows {
        let operands = arity(row[0]);
        for operand in &mut row[1..=operands] {
            *operand = places[operand];
        }
    }
    rows
}

/// The name of a node.
#[must_use]
pub fn name(node: u64, row: &[u64; ROW]) -> String {
    let [kind, a, ..] = row;
    if is_declared(*kind) {
        format!("x{node}_{kind}_{a}")
    } else {
        format!("n{node}")
    }
}

/// The name of a rounding.
pub fn rounding(number: u64) -> &'static str {
    if number == 0 { "RNE" } else { "RTZ" }
}

/// The exponent's and the significand's bits.
pub fn format_text(format: Format) -> String {
    format!("{} {}", format.exponent, format.significand)
}

/// The name of the operation of kinds 16 to 19.
pub fn operation(kind: u64) -> &'static str {
    ["fp.add", "fp.sub", "fp.mul", "fp.div"][usize::try_from(kind - 16).expect("one of four")]
}

fn sort_text(sort: Sort) -> String {
    match sort {
        Sort::Bits(width) => format!("(_ BitVec {width})"),
        Sort::Float(format) => format!("(_ FloatingPoint {})", format_text(format)),
    }
}

fn to_fp(format: Format, arguments: &str) -> String {
    format!("((_ to_fp {}) {arguments})", format_text(format))
}

/// A truth as one bit.
fn bit(truth: &str) -> String {
    format!("(ite {truth} #b1 #b0)")
}

/// A list that passes the check.
#[derive(Clone, Copy)]
struct List<'a> {
    rows: &'a [[u64; ROW]],
    sorts: &'a [Sort],
}

impl List<'_> {
    fn name(self, node: u64) -> String {
        name(node, &self.rows[usize::try_from(node).expect("a node")])
    }

    /// That a node of one bit is 1.
    fn truth(self, node: u64) -> String {
        format!("(= #b1 {})", self.name(node))
    }

    /// The format of a float.
    fn format(self, node: u64) -> Format {
        let sort = self.sorts[usize::try_from(node).expect("a node")];
        sort.float().expect("a float")
    }

    fn declaration(self, node: usize) -> String {
        let (name, sort) = (self.name(node as u64), sort_text(self.sorts[node]));
        format!("(declare-fun {name} () {sort})\n")
    }

    fn definition(self, node: usize) -> String {
        let (name, sort) = (self.name(node as u64), sort_text(self.sorts[node]));
        let term = match self.rows[node][0] {
            ..16 => self.bits_term(node),
            _ => self.float_term(node),
        };
        format!("(define-fun {name} () {sort} {term})\n")
    }

    /// That the pattern of a float reads as that float.
    fn assertion(self, node: usize) -> String {
        let a = self.rows[node][1];
        let read = to_fp(self.format(a), &self.name(node as u64));
        format!("(assert (= {read} {}))\n", self.name(a))
    }

    /// The term of a node of kinds 6 to 15.
    fn bits_term(self, node: usize) -> String {
        let [kind, a, b, c] = self.rows[node];
        let name = |node| self.name(node);
        let truth = |node| self.truth(node);
        match kind {
            6 => {
                let width = usize::try_from(c).expect("at most 80");
                format!("#b{:0width$b}", u128::from(b) << 64 | u128::from(a))
            }
            7 => format!("(bvand {} {})", name(a), name(b)),
            8 => format!("(bvxor {} {})", name(a), name(b)),
            9 => bit(&format!("(= {} {})", name(a), name(b))),
            10 => bit(&format!("(and {} {})", truth(a), truth(b))),
            11 => bit(&format!("(or {} {})", truth(a), truth(b))),
            12 => bit(&format!("(not {})", truth(a))),
            13 => format!("(ite {} {} {})", truth(a), name(b), name(c)),
            14 => format!("((_ extract {b} {c}) {})", name(a)),
            15 => format!("(concat {} {})", name(a), name(b)),
            _ => unreachable!("it is declared"),
        }
    }

    /// The term of a node of kinds 16 to 29 but 26.
    fn float_term(self, node: usize) -> String {
        let [kind, a, b, c] = self.rows[node];
        let name = |node| self.name(node);
        let rounded = |mode| format!("{} {}", rounding(mode), name(a));
        let format = |node: usize| self.format(node as u64);
        match kind {
            16..=19 => format!("({} {} {})", operation(kind), rounded(c), name(b)),
            20 => bit(&format!("(fp.eq {} {})", name(a), name(b))),
            21 => bit(&format!("(fp.lt {} {})", name(a), name(b))),
            22 => bit(&format!("(fp.isNaN {})", name(a))),
            23 => format!("(fp.sqrt {})", rounded(b)),
            24 => format!("(fp.roundToIntegral {})", rounded(b)),
            25 => to_fp(format(node), &name(a)),
            27 => format!("((_ fp.to_sbv {c}) {})", rounded(b)),
            28 | 29 => to_fp(format(node), &rounded(b)),
            _ => unreachable!("it is declared, or of bits"),
        }
    }
}
