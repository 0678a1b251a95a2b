//! The lines of a text.

use std::ops::RangeInclusive;

use super::cursor::{Cursor, Token};
use super::subset::State;
use super::terms::term;
use super::text::format_text;
use crate::sorts::{Format, Sort};

/// What a line is.
#[derive(Debug, Clone, Copy, PartialEq, Eq)]
pub enum Line {
    Declaration,
    Definition,
    Assertion,
}

/// One node for each of these numbers.
fn each(numbers: &[u64]) -> Vec<RangeInclusive<u64>> {
    numbers.iter().map(|&number| number..=number).collect()
}

/// The first word of a line. Declarations come before definitions, and those
/// before assertions, of which `asserted` are read; a text ends where all is
/// said. None at the end.
pub fn first_word(
    cursor: &mut Cursor,
    state: &State,
    last: Line,
    asserted: usize,
) -> Token<Option<Line>> {
    let complete = !state.entries.is_empty() && state.first_owed().is_none();
    let open = asserted < state.patterns.len();
    if cursor.is_at_end() && complete && !open {
        return Ok(None);
    }
    let declares = last == Line::Declaration && !state.declarable().is_empty();
    let defines = last != Line::Assertion && !state.definable().is_empty();
    let words = [
        (declares, "(declare-fun x", Line::Declaration),
        (defines, "(define-fun n", Line::Definition),
        (complete && open, "(assert (= ", Line::Assertion),
    ];
    let family = words.iter().filter(|(possible, ..)| *possible);
    let mut family = family.map(|&(_, word, line)| (word, "", line)).peekable();
    if family.peek().is_none() && complete && !open {
        return cursor.stop();
    }
    cursor.one_of(family).map(Some)
}

/// What follows the first word of a declaration.
pub fn declaration(cursor: &mut Cursor, state: &mut State) -> Token<()> {
    let universe = state.universe;
    let node = cursor.number(&state.declarable(), "_")?;
    let kind = cursor.number(&each(&state.declared_kinds(node)), "_")?;
    let numbers = match kind {
        1..=3 => vec![universe.numbers.clone()],
        4 => vec![0..=0],
        5 => each(&universe.flags),
        _ => state.floats_of(node),
    };
    let a = cursor.number(&numbers, " ")?;
    cursor.fixed("() (_ BitVec ")?;
    let widths = match kind {
        1 => universe.inputs.clone(),
        2 | 3 => universe.variables.clone(),
        4 => vec![16],
        5 => vec![1],
        _ => {
            let formats = state.formats_of(a).into_iter();
            formats.map(Format::width).collect()
        }
    };
    let width = cursor.number(&each(&widths), "))\n")?;
    let bits = if kind <= 3 { width } else { 0 };
    state.add(node, [kind, a, bits, 0], Sort::Bits(width));
    Ok(())
}

/// What follows the first word of a definition.
pub fn definition(cursor: &mut Cursor, state: &mut State) -> Token<()> {
    let node = cursor.number(&state.definable(), " ")?;
    cursor.fixed("() (_ ")?;
    let sort = sort(cursor, state, node)?;
    let row = term(cursor, state, node, sort)?;
    cursor.fixed(")\n")?;
    state.add(node, row, sort);
    Ok(())
}

/// The sort of a node that is defined.
fn sort(cursor: &mut Cursor, state: &State, node: u64) -> Token<Sort> {
    let sorts = state.sorts(node);
    let bits: Vec<u64> = sorts.iter().filter_map(|sort| sort.bits()).collect();
    let floats = sorts.iter().filter_map(|sort| sort.float());
    let floats: Vec<(String, Format)> = floats.map(|f| (format_text(f), f)).collect();
    let words = [
        ("BitVec ", true, bits.is_empty()),
        ("FloatingPoint ", false, floats.is_empty()),
    ];
    let family = words.into_iter().filter(|(.., none)| !none);
    if cursor.one_of(family.map(|(word, of_bits, _)| (word, "", of_bits)))? {
        return cursor.number(&each(&bits), ") ").map(Sort::Bits);
    }
    let family = floats.iter().map(|(text, f)| (text.as_str(), ") ", *f));
    cursor.one_of(family).map(Sort::Float)
}

/// What follows the first word of the assertion of a node of kind 26.
pub fn assertion(cursor: &mut Cursor, state: &State, pattern: u64) -> Token<()> {
    let pattern = &state.entries[&pattern];
    let float = &state.entries[&pattern.row[1]];
    let format = float.sort.float().expect("a float is owed");
    let read = format!("((_ to_fp {}) {})", format_text(format), pattern.name);
    cursor.fixed(&format!("{read} {}))\n", float.name))
}
