//! The state of a lift as 13 words, rooms of lists, and when a state is
//! valid.

/// Words of a state: eight slots, the top first, then depth, nodes,
/// statements, inputs, temporaries.
pub const STATE: usize = 13;
/// Slots of the stack.
pub const SLOTS: usize = 8;

/// Where the numbers after the slots stand.
pub const DEPTH: usize = 8;
pub const NODES: usize = 9;
pub const STATEMENTS: usize = 10;
pub const INPUTS: usize = 11;
pub const TEMPORARIES: usize = 12;

/// Words of a row: kind, a, b, c.
pub const ROW: usize = 4;

/// The largest room of a list.
const MOST: usize = 65_535;

/// The room of a list of that many words.
#[must_use]
pub fn room(words: usize) -> u64 {
    (words / ROW).min(MOST) as u64
}

/// Whether a state is valid over lists of these rooms.
#[must_use]
pub fn valid(state: &[u64; STATE], node_room: u64, statement_room: u64) -> bool {
    let nodes = state[NODES];
    let slot = |(i, &slot): (usize, &u64)| {
        if (i as u64) < state[DEPTH] {
            slot < nodes
        } else {
            slot == 0
        }
    };
    state[DEPTH] <= SLOTS as u64
        && state[..SLOTS].iter().enumerate().all(slot)
        && state[INPUTS].saturating_add(state[TEMPORARIES]) <= nodes
        && nodes <= node_room
        && state[STATEMENTS] <= statement_room
}

#[cfg(test)]
mod tests {
    use super::{DEPTH, INPUTS, NODES, STATE, STATEMENTS, TEMPORARIES, room, valid};

    #[test]
    fn rooms_are_whole_rows_up_to_the_most() {
        assert_eq!([0, 3, 4, 7].map(room), [0, 0, 1, 1]);
        assert_eq!(room(4 * 65_535), 65_535);
        assert_eq!(room(4 * 65_536), 65_535);
    }

    #[test]
    fn each_demand_on_a_state_counts() {
        let mut good = [0; STATE];
        good[..2].copy_from_slice(&[4, 0]);
        good[DEPTH] = 2;
        good[NODES] = 5;
        good[STATEMENTS] = 1;
        good[INPUTS] = 3;
        good[TEMPORARIES] = 2;
        assert!(valid(&good, 5, 1) && valid(&[0; STATE], 0, 0));
        assert!(!valid(&good, 4, 1) && !valid(&good, 5, 0));
        for (at, value) in [(0, 5), (2, 1), (DEPTH, 9), (INPUTS, 4), (TEMPORARIES, 3)] {
            let mut bad = good;
            bad[at] = value;
            assert!(!valid(&bad, 5, 1), "word {at} is {value}");
        }
    }
}
