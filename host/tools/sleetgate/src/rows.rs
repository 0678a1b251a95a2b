//! Rows of four words, as lists of nodes and statements lie in memory.

use std::iter::FusedIterator;
use std::slice;

/// Words of a row.
pub(crate) const ROW: usize = 4;

/// The rows in some words. Words beyond the last whole row are no part of
/// them.
#[derive(Debug, Clone, Copy, PartialEq, Eq)]
pub(crate) struct Rows<'a>(pub(crate) &'a [u64]);

impl<'a> Rows<'a> {
    pub(crate) fn len(self) -> usize {
        self.0.len() / ROW
    }

    pub(crate) fn get(self, number: u64) -> Option<[u64; ROW]> {
        let at = usize::try_from(number).ok()?.checked_mul(ROW)?;
        self.0.get(at..)?.first_chunk().copied()
    }

    /// What `of` makes of each row.
    pub(crate) fn iter<T>(self, of: fn([u64; ROW]) -> Option<T>) -> Iter<'a, T> {
        let rows = self.0.as_chunks().0.iter();
        Iter { rows, of }
    }
}

/// The nodes or the statements of a list, in order. A row that is none
/// ends them.
///
/// ```
/// use sleetgate::{Node, Nodes};
///
/// let words = [4, 0, 0, 0, 99, 0, 0, 0, 4, 0, 0, 0];
/// let mut nodes = Nodes::new(&words).into_iter();
/// assert_eq!(nodes.next(), Some(Node::Status));
/// assert_eq!((nodes.next(), nodes.next()), (None, None));
/// ```
#[derive(Debug, Clone)]
pub struct Iter<'a, T> {
    rows: slice::Iter<'a, [u64; ROW]>,
    of: fn([u64; ROW]) -> Option<T>,
}

impl<T> Iterator for Iter<'_, T> {
    type Item = T;

    fn next(&mut self) -> Option<T> {
        let item = self.rows.next().and_then(|&row| (self.of)(row));
        if item.is_none() {
            self.rows = [].iter();
        }
        item
    }

    fn size_hint(&self) -> (usize, Option<usize>) {
        (0, Some(self.rows.len()))
    }
}

impl<T> FusedIterator for Iter<'_, T> {}
