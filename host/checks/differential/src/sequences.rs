//! Random sequences of instructions: well formed, odd, declining,
//! overflowing, underflowing, and out of range.

use plain::Instruction;

use crate::instructions::{Grid, fill_unused, put_out_of_range};
use crate::rng::Rng;
use crate::wellformed::{self, Lean, Style};

/// The longest sequence.
pub const LONGEST: usize = 200;

/// How the instructions of one sequence are chosen.
#[derive(Debug, Clone, Copy)]
pub struct Profile {
    pub length: usize,
    style: Style,
    /// One in this many is any instruction of the grid, or nearly well
    /// formed.
    wild: usize,
    /// One in this many is out of range.
    refused: usize,
    /// Of sixteen, how many push and how many pop.
    push: usize,
    pop: usize,
}

impl Profile {
    /// A random profile.
    pub fn random(rng: &mut Rng) -> Self {
        let (push, pop) = *rng.pick(&[(4, 4), (5, 4), (8, 2), (12, 2), (2, 8), (1, 12)]);
        Self {
            length: rng.between(1, LONGEST),
            style: Style {
                odd: rng.one_in(2),
                near: !rng.one_in(3),
            },
            wild: *rng.pick(&[4, 16, 64, 1000]),
            refused: *rng.pick(&[8, 32, 1000, 1000]),
            push,
            pop,
        }
    }

    /// A profile of well-formed instructions that keep the depth about
    /// where it is.
    #[must_use]
    pub fn plain(length: usize) -> Self {
        Self {
            length,
            style: Style {
                odd: false,
                near: true,
            },
            wild: usize::MAX,
            refused: usize::MAX,
            push: 5,
            pop: 5,
        }
    }

    /// The next instruction over a stack of this depth.
    pub fn next(&self, grid: &Grid, rng: &mut Rng, depth: usize) -> Instruction {
        let mut insn = if rng.one_in(self.wild) {
            if rng.one_in(2) {
                wellformed::nearly(rng)
            } else {
                grid.random(rng)
            }
        } else {
            let lean = self.lean(rng);
            wellformed::random(rng, self.style, lean, depth)
        };
        if self.style.odd && rng.one_in(2) {
            fill_unused(&mut insn, rng);
        }
        if rng.one_in(self.refused) {
            put_out_of_range(&mut insn, rng);
        }
        insn
    }

    fn lean(&self, rng: &mut Rng) -> Lean {
        let at = rng.below(16);
        if at < self.push {
            Lean::Push
        } else if at < self.push + self.pop {
            Lean::Pop
        } else {
            Lean::Keep
        }
    }
}
