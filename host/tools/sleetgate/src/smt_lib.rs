//! Formulas as SMT-LIB text, for a solver.
//!
//! A text has one line for each node that a root needs, in the order of the
//! nodes: first declarations of the values that a formula starts from and of
//! the patterns of floats, then definitions of all others, then for each
//! pattern the assertion that it reads as its float. A declared node 7 is
//! named `x7_1_0`, by its number, its kind and its first field; a defined one
//! `n7`. Truth is one bit. No command stands in it: whoever asks a solver puts
//! questions behind it, and before it what the solver wants (cvc5 takes the
//! stack's own format with `--fp-exp` alone).
//!
//! A pattern of NaN may be any in a solver's answer, where
//! [`evaluate`](crate::evaluate) has one; and two nodes of one variable are
//! two constants. So a formula that a solver finds no values for has none, and
//! values that it finds need not be ones that a run can have.

use sleetgate_sys::TOLD;

use crate::lifter::MOST_ROWS;
use crate::record::place;
use crate::rows::ROW;
use crate::{Node, Nodes, Refusal};

/// Bytes that are lent at first for each node.
const LINE: usize = 64;

/// The text of what a node needs.
///
/// ```
/// use sleetgate::{Flag, Node, Nodes, smt_lib};
///
/// let list = Node::words(&[Node::Flag(Flag::ZF), Node::Status, Node::BoolNot(0)]);
/// let text = smt_lib::write(Nodes::new(&list), 2)?;
/// let lines = [
///     "(declare-fun x0_5_2 () (_ BitVec 1))",
///     "(define-fun n2 () (_ BitVec 1) (ite (not (= #b1 x0_5_2)) #b1 #b0))",
/// ];
/// assert_eq!(text, lines.map(|line| format!("{line}\n")).concat());
/// # Ok::<(), sleetgate::Refusal>(())
/// ```
///
/// # Errors
/// [`Refusal::Short`] where there are more than 65,535 nodes, then
/// [`Refusal::Sort`], then [`Refusal::Root`] where there is no such node.
pub fn write(nodes: Nodes<'_>, root: u64) -> Result<String, Refusal> {
    let root = place(root);
    let mut text = vec![0; nodes.len().clamp(1, MOST_ROWS) * LINE];
    loop {
        let (words, mut told) = (nodes.words(), [0; TOLD]);
        let number = sleetgate_sys::smt_write(words, nodes.len(), root, &mut text, &mut told);
        match Refusal::told(number, told[0]) {
            Some(Refusal::TextRoom) => text.resize(text.len() * 2, 0),
            Some(refusal) => return Err(refusal),
            None => {
                text.truncate(place(told[0]));
                return Ok(String::from_utf8_lossy(&text).into_owned());
            }
        }
    }
}

/// The nodes of a text, in its own order and numbered from 0. The root of a
/// text that [`write()`] made is the last of them.
///
/// ```
/// use sleetgate::{Flag, Node, Refusal, smt_lib};
///
/// let text = "(declare-fun x7_5_2 () (_ BitVec 1))\n";
/// assert_eq!(smt_lib::read(text)?, [Node::Flag(Flag::ZF)]);
/// let spaced = "(declare-fun  x7_5_2 () (_ BitVec 1))\n";
/// assert_eq!(smt_lib::read(spaced), Err(Refusal::Syntax { place: 13 }));
/// # Ok::<(), Refusal>(())
/// ```
///
/// # Errors
/// [`Refusal::Syntax`] where the bytes are no text of that kind.
pub fn read(text: impl AsRef<[u8]>) -> Result<Vec<Node>, Refusal> {
    let text = text.as_ref();
    // Each node has a line of its own.
    let lines = text.iter().filter(|&&byte| byte == b'\n').count();
    let (mut nodes, mut told) = (vec![0; lines.min(MOST_ROWS) * ROW], [0; TOLD]);
    let number = sleetgate_sys::smt_read(text, &mut nodes, &mut told);
    match Refusal::told(number, told[0]) {
        Some(refusal) => Err(refusal),
        None => Ok(Nodes::new(&nodes).iter().take(place(told[0])).collect()),
    }
}
