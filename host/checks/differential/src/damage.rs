//! Lists of nodes that were well sorted until something was changed.

use plain::sorts::Format;
use plain::state::ROW;

use crate::rng::Rng;

/// Where a list's rows are changed as a whole, and where one word is.
pub fn damage(nodes: &mut Vec<u64>, rng: &mut Rng) {
    let rows = nodes.len() / ROW;
    if rows == 0 {
        return;
    }
    let (one, other) = (rng.below(rows), rng.below(rows));
    match rng.below(16) {
        0 => swap_rows(nodes, one, other),
        1 => drop(nodes.drain(one * ROW..(one + 1) * ROW)),
        2 => nodes.copy_within(one * ROW..(one + 1) * ROW, other * ROW),
        3 => {
            let fields = &mut nodes[one * ROW..(one + 1) * ROW];
            fields.swap(rng.below(ROW), rng.below(ROW));
        }
        _ => change_word(nodes, one, rng),
    }
}

fn swap_rows(nodes: &mut [u64], one: usize, other: usize) {
    for field in 0..ROW {
        nodes.swap(one * ROW + field, other * ROW + field);
    }
}

/// Put another value in one of a row's words.
fn change_word(nodes: &mut [u64], row: usize, rng: &mut Rng) {
    let word = &mut nodes[row * ROW + rng.below(ROW)];
    *word = match rng.below(12) {
        0 => word.wrapping_add(1),
        1 => word.wrapping_sub(1),
        2 => 0,
        3 => rng.below(4) as u64,
        4 => rng.below(32) as u64,
        5 => rng.below(row + 2) as u64,
        6 => row as u64,
        7 => *rng.pick(&[15, 16, 17, 31, 32, 63, 64, 65, 78, 79, 80, 81]),
        8 => rng.pick(&Format::ALL).number() + rng.below(2) as u64,
        9 => *word | 1 << rng.below(64),
        10 => *word ^ 1 << rng.below(8),
        _ => rng.word(),
    };
}
