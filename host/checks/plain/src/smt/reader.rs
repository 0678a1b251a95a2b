//! The reader.

use std::collections::BTreeMap;

use super::cursor::{Cursor, Stop, Token};
use super::lines::{Line, assertion, declaration, definition, first_word};
use super::subset::State;
use super::text::compact;
use super::universe::Universe;
use crate::state::ROW;

/// What a reader says of some bytes.
#[derive(Debug, Clone, PartialEq, Eq)]
pub enum Read {
    /// A text of the subset: its nodes in their order, numbered from 0.
    Rows(Vec<[u64; ROW]>),
    /// No text of the subset: the first bytes up to this place begin one,
    /// and one more do not.
    Stop(usize),
    /// A text of the subset, of more nodes than there is room for.
    TooFew,
}

/// What a reader says of some bytes, where there is room for so many nodes.
#[must_use]
pub fn read(bytes: &[u8], room: usize) -> Read {
    match numbered(bytes, &Universe::default()) {
        Err(place) => Read::Stop(place),
        Ok(nodes) if nodes.len() > room => Read::TooFew,
        Ok(nodes) => Read::Rows(compact(&nodes)),
    }
}

/// The rows of a text of a universe by the numbers of their nodes.
///
/// # Errors
/// How many of the bytes begin some text, where they are none.
pub fn numbered(bytes: &[u8], universe: &Universe) -> Result<BTreeMap<u64, [u64; ROW]>, usize> {
    let mut state = State::new(universe);
    match lines(&mut Cursor::new(bytes), &mut state) {
        Err(Stop(place)) => Err(place),
        Ok(()) => {
            let entries = state.entries.into_iter();
            Ok(entries.map(|(node, entry)| (node, entry.row)).collect())
        }
    }
}

fn lines(cursor: &mut Cursor, state: &mut State) -> Token<()> {
    let (mut last, mut asserted) = (Line::Declaration, 0);
    while let Some(line) = first_word(cursor, state, last, asserted)? {
        match line {
            Line::Declaration => declaration(cursor, state)?,
            Line::Definition => definition(cursor, state)?,
            Line::Assertion => {
                assertion(cursor, state, state.patterns[asserted])?;
                asserted += 1;
            }
        }
        last = line;
    }
    Ok(())
}

#[cfg(test)]
mod tests {
    use super::{Read, read};
    use crate::smt::write;

    /// The nodes of P6 (the manual, section 10), with one that is not needed.
    const ROWS: [[u64; 4]; 7] = [
        [1, 0, 79, 0],
        [4, 0, 0, 0],
        [1, 1, 79, 0],
        [25, 2, 0, 3904],
        [25, 0, 0, 3904],
        [16, 3, 4, 0],
        [26, 5, 0, 0],
    ];

    const TEXT: &str = "\
(declare-fun x0_1_0 () (_ BitVec 79))
(declare-fun x2_1_1 () (_ BitVec 79))
(declare-fun x6_26_5 () (_ BitVec 79))
(define-fun n3 () (_ FloatingPoint 15 64) ((_ to_fp 15 64) x2_1_1))
(define-fun n4 () (_ FloatingPoint 15 64) ((_ to_fp 15 64) x0_1_0))
(define-fun n5 () (_ FloatingPoint 15 64) (fp.add RNE n3 n4))
(assert (= ((_ to_fp 15 64) x6_26_5) n5))
";

    #[test]
    fn a_sum_is_written_and_read_back() {
        assert_eq!(write(&ROWS.concat(), 7, 6, TEXT.len()), Ok(TEXT.to_owned()));
        let rows = vec![
            [1, 0, 79, 0],
            [1, 1, 79, 0],
            [25, 1, 0, 3904],
            [25, 0, 0, 3904],
            [16, 2, 3, 0],
            [26, 4, 0, 0],
        ];
        assert_eq!(read(TEXT.as_bytes(), 6), Read::Rows(rows));
        assert_eq!(read(TEXT.as_bytes(), 5), Read::TooFew);
        // The first line alone and the first two are texts themselves.
        let line = TEXT.lines().next().map_or(0, |line| line.len() + 1);
        for cut in (0..TEXT.len()).filter(|&cut| cut != line && cut != 2 * line) {
            assert_eq!(read(&TEXT.as_bytes()[..cut], 9), Read::Stop(cut));
        }
        let more = format!("{TEXT}(");
        assert_eq!(read(more.as_bytes(), 9), Read::Stop(TEXT.len()));
    }

    #[test]
    fn refusals_of_the_writer_in_their_order() {
        let refused = |nodes: &[u64], count, root, room| {
            let verdict = write(nodes, count, root, room).expect_err("it is refused");
            (verdict.number, verdict.node)
        };
        let mut nodes = ROWS.concat();
        assert_eq!(refused(&nodes, 7, 7, 0), (31, 0));
        assert_eq!(refused(&nodes, 7, 6, TEXT.len() - 1), (32, 0));
        assert_eq!(refused(&nodes, 0, 0, 0), (31, 0));
        nodes[4] = 99;
        assert_eq!(refused(&nodes, 7, 9, 0), (8, 1));
        assert_eq!(refused(&nodes, 8, 9, 0), (10, 0));
    }
}
