//! Inputs for the reader of records: good ones, each damaged at every
//! byte and cut at every length, and random ones.

use plain::record;

use crate::instructions::{Grid, fill_unused};
use crate::rng::Rng;

/// An input, and where reading starts.
#[derive(Debug, Clone)]
pub struct Input {
    pub bytes: Vec<u8>,
    pub at: usize,
}

/// The end mark.
const END: [u8; 2] = [0x87, 0x45];

/// Values that a damaged byte takes, beside a random one: limits and
/// marks, and their neighbours.
const TELLING: [u8; 14] = [0, 1, 2, 3, 4, 31, 32, 33, 0x45, 0x49, 127, 128, 0x87, 255];

/// Random inputs for each good one.
const RANDOM: usize = 64;

/// A good input: records one after the other, and often the end mark.
struct Good {
    bytes: Vec<u8>,
    /// Where each record, and the end, begins.
    starts: Vec<usize>,
}

impl Good {
    fn random(grid: &Grid, rng: &mut Rng) -> Self {
        let mut good = Self {
            bytes: Vec::new(),
            starts: Vec::new(),
        };
        for _ in 0..rng.between(1, 3) {
            let mut insn = grid.random(rng);
            fill_unused(&mut insn, rng);
            good.starts.push(good.bytes.len());
            good.bytes.extend(record(&insn));
        }
        if !rng.one_in(4) {
            good.starts.push(good.bytes.len());
            good.bytes.extend(END);
        }
        good
    }

    /// Where the record begins that holds the byte at `at`.
    fn start_of(&self, at: usize) -> usize {
        let before = self.starts.iter().rev().find(|&&s| s <= at);
        *before.expect("the first record begins at 0")
    }

    /// This input, read from every place and from beyond its end.
    fn whole(&self) -> impl Iterator<Item = Input> {
        let beyond = [self.bytes.len() + 1, 65_535, usize::MAX];
        (0..=self.bytes.len()).chain(beyond).map(move |at| Input {
            bytes: self.bytes.clone(),
            at,
        })
    }

    /// This input cut at every length, read from each record before.
    fn cut(&self) -> impl Iterator<Item = Input> {
        (0..self.bytes.len()).flat_map(move |len| {
            let starts = self.starts.iter().filter(move |&&s| s <= len);
            starts.map(move |&at| Input {
                bytes: self.bytes[..len].to_vec(),
                at,
            })
        })
    }

    /// This input with each byte changed, read from the record that
    /// holds it.
    fn damaged(&self, rng: &mut Rng) -> Vec<Input> {
        let mut all = Vec::new();
        for place in 0..self.bytes.len() {
            for value in TELLING.into_iter().chain([rng.byte()]) {
                let mut bytes = self.bytes.clone();
                bytes[place] = value;
                let at = self.start_of(place);
                all.push(Input { bytes, at });
            }
        }
        all
    }

    /// This input with some bytes changed, added or removed.
    fn mangled(&self, rng: &mut Rng) -> Input {
        let mut bytes = self.bytes.clone();
        for _ in 0..rng.between(1, 4) {
            let place = rng.below(bytes.len() + 1);
            let value = if rng.one_in(2) {
                rng.byte()
            } else {
                *rng.pick(&TELLING)
            };
            match rng.below(3) {
                0 if place < bytes.len() => bytes[place] = value,
                1 if place < bytes.len() => drop(bytes.remove(place)),
                _ => bytes.insert(place, value),
            }
        }
        let at = *rng.pick(&self.starts);
        Input { bytes, at }
    }
}

/// Random bytes, often behind a right mark, often of telling values.
fn random(rng: &mut Rng) -> Input {
    let telling = rng.one_in(2);
    let mut bytes: Vec<u8> = (0..rng.below(80))
        .map(|_| {
            if telling {
                *rng.pick(&TELLING)
            } else {
                rng.byte()
            }
        })
        .collect();
    if rng.one_in(2) {
        bytes.splice(0..0, [0x87, 0x49]);
    }
    let at = if rng.one_in(4) {
        rng.below(bytes.len() + 3)
    } else {
        0
    };
    Input { bytes, at }
}

/// All inputs that are made from the next good one.
pub fn batch(grid: &Grid, rng: &mut Rng) -> Vec<Input> {
    let good = Good::random(grid, rng);
    let mut all: Vec<Input> = good.whole().chain(good.cut()).collect();
    all.extend(good.damaged(rng));
    for _ in 0..RANDOM {
        all.push(good.mangled(rng));
        all.push(random(rng));
    }
    all
}
