//! The sort check and the evaluator.

use sleetgate_sys::{NAMED, VALUE};

use crate::node::words;
use crate::{Nodes, Refusal};

/// Check that every node has a sort.
///
/// ```
/// use sleetgate::{Node, Nodes, Refusal, check};
///
/// let word = Node::Input { number: 0, bits: 16 };
/// let bit = Node::Extract { source: 0, hi: 8, lo: 8 };
/// assert_eq!(check(Nodes::new(&Node::words(&[word, bit]))), Ok(()));
/// let wide = Node::Extract { source: 0, hi: 16, lo: 8 };
/// let fault = check(Nodes::new(&Node::words(&[word, bit, wide])));
/// assert_eq!(fault, Err(Refusal::Sort { node: 2 }));
/// ```
///
/// # Errors
/// [`Refusal::Short`] where there are more than 65,535 nodes, then
/// [`Refusal::Sort`] with the first node that has none.
pub fn check(nodes: Nodes<'_>) -> Result<(), Refusal> {
    let mut named = [0; NAMED];
    let number = sleetgate_sys::check(nodes.words(), nodes.len(), &mut named);
    Refusal::told(number, named[0]).map_or(Ok(()), Err)
}

/// The value of each node, where inputs, temporaries, slots, the status
/// word, flags, float arithmetic and conversions take theirs from
/// `given`, which has one value for each node; the others' are not looked
/// at. A float's value is its pattern.
///
/// ```
/// use sleetgate::{Node, Nodes, evaluate};
///
/// let list = [Node::Input { number: 0, bits: 16 }, Node::Extract { source: 0, hi: 14, lo: 14 }];
/// let words = Node::words(&list);
/// assert_eq!(evaluate(Nodes::new(&words), &[0x4000, 0])?, [0x4000, 1]);
/// # Ok::<(), sleetgate::Refusal>(())
/// ```
///
/// # Errors
/// [`Refusal::Short`] where there are more than 65,535 nodes or fewer
/// values, then [`Refusal::Sort`], then [`Refusal::Wide`] with the first
/// node whose given value does not fit.
pub fn evaluate(nodes: Nodes<'_>, given: &[u128]) -> Result<Vec<u128>, Refusal> {
    let given: Vec<u64> = given.iter().flat_map(|&value| words(value)).collect();
    let mut column = vec![0; nodes.len() * VALUE];
    let mut named = [0; NAMED];
    let number =
        sleetgate_sys::evaluate(nodes.words(), nodes.len(), &given, &mut column, &mut named);
    match Refusal::told(number, named[0]) {
        Some(refusal) => Err(refusal),
        None => Ok(column.as_chunks().0.iter().map(value).collect()),
    }
}

/// The value of two words, low first.
pub(crate) fn value(&[low, high]: &[u64; VALUE]) -> u128 {
    u128::from(high) << 64 | u128::from(low)
}
