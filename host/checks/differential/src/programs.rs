//! Whole inputs for the program `x87lift`.

use plain::{Instruction, Operand, TEXT, record};

use crate::instructions::{Grid, fill_unused};
use crate::rng::Rng;
use crate::sequences::Profile;

/// The end mark.
const END: [u8; 2] = [0x87, 0x45];

/// The most bytes that the program takes.
const MOST_BYTES: usize = 16_384;

/// Values that a damaged byte takes, beside a random one.
const TELLING: [u8; 14] = [0, 1, 2, 3, 4, 31, 32, 33, 0x45, 0x49, 127, 128, 0x87, 255];

/// Instructions that fill a list fast: by nodes, by statements, by both.
const FILLING: [&str; 6] = ["fcom", "fcompp", "fucom", "fcomi", "fcomip", "fldl2e"];

/// What an input is meant to try.
#[derive(Debug, Clone, Copy, PartialEq, Eq)]
pub enum Kind {
    WellFormed,
    Odd,
    Damaged,
    Cut,
    Mangled,
    Random,
    Filling,
    Long,
}

impl Kind {
    #[must_use]
    pub fn name(self) -> &'static str {
        match self {
            Self::WellFormed => "well formed",
            Self::Odd => "odd",
            Self::Damaged => "damaged at each byte",
            Self::Cut => "cut at each length",
            Self::Mangled => "mangled",
            Self::Random => "random bytes",
            Self::Filling => "filling the lists",
            Self::Long => "about 16,384 bytes",
        }
    }
}

/// The next inputs, of all kinds.
pub fn batch(rng: &mut Rng) -> Vec<(Kind, Vec<u8>)> {
    let grid = Grid::default();
    let mut all = Vec::new();
    for _ in 0..40 {
        let length = rng.between(0, 60);
        let profile = Profile::plain(length);
        all.push((Kind::WellFormed, sequence(&grid, rng, profile)));
        let profile = Profile::random(rng);
        all.push((Kind::Odd, sequence(&grid, rng, profile)));
        all.push((Kind::Filling, filling(&grid, rng)));
        all.push((Kind::Random, random(rng)));
    }
    for _ in 0..8 {
        all.push((Kind::Long, long(rng)));
    }
    let good = short(&grid, rng);
    for place in 0..good.len() {
        all.push((Kind::Cut, good[..place].to_vec()));
        for value in [*rng.pick(&TELLING), rng.byte()] {
            let mut bytes = good.clone();
            bytes[place] = value;
            all.push((Kind::Damaged, bytes));
        }
    }
    for _ in 0..40 {
        all.push((Kind::Mangled, mangled(&good, rng)));
    }
    all
}

/// A sequence of a profile; texts that no record has are cut.
fn sequence(grid: &Grid, rng: &mut Rng, profile: Profile) -> Vec<u8> {
    let mut bytes = Vec::new();
    let mut depth = 0;
    for _ in 0..profile.length {
        let insn = profile.next(grid, rng, depth);
        depth = (depth + rng.below(3)).saturating_sub(1).min(8);
        bytes.extend(record(&insn));
    }
    bytes.extend(END);
    bytes
}

/// A few records of the grid, and often the end mark.
fn short(grid: &Grid, rng: &mut Rng) -> Vec<u8> {
    let mut bytes = Vec::new();
    for _ in 0..rng.between(1, 3) {
        let mut insn = grid.random(rng);
        fill_unused(&mut insn, rng);
        bytes.extend(record(&insn));
    }
    if !rng.one_in(4) {
        bytes.extend(END);
    }
    bytes
}

/// Instructions that add many rows, until a list is about full or well
/// over it, with others among them.
fn filling(grid: &Grid, rng: &mut Rng) -> Vec<u8> {
    let profile = Profile::plain(1);
    let others = *rng.pick(&[2, 5, 20, usize::MAX]);
    let name = *rng.pick(&FILLING);
    let mut bytes = Vec::new();
    for address in 0..rng.between(40, 300) {
        let insn = if rng.one_in(others) {
            profile.next(grid, rng, 4)
        } else if name.starts_with("fcomi") {
            Instruction::new(
                address as u64,
                name.as_bytes(),
                &[Operand::register(b"st(1)")],
            )
        } else {
            Instruction::new(address as u64, name.as_bytes(), &[])
        };
        bytes.extend(record(&insn));
    }
    bytes.extend(END);
    bytes
}

/// Exchanges whose names are filled with blanks, up to a length near the
/// most that the program takes.
fn long(rng: &mut Rng) -> Vec<u8> {
    let length = match rng.below(4) {
        0 => MOST_BYTES,
        1 => MOST_BYTES + 1,
        2 => rng.between(MOST_BYTES - 9, MOST_BYTES + 9),
        _ => rng.between(MOST_BYTES + 1, 70_000),
    };
    of_length(length)
}

/// A well-formed input of exactly so many bytes, at least 64.
///
/// # Panics
/// Where fewer bytes are asked for.
#[must_use]
pub fn of_length(length: usize) -> Vec<u8> {
    let exchange = |blanks: usize| {
        let name = format!("{}fxch", " ".repeat(blanks));
        record(&Instruction::new(0, name.as_bytes(), &[]))
    };
    let (least, most) = (exchange(0).len(), exchange(TEXT - 4).len());
    let mut left = length - END.len();
    let mut bytes = Vec::new();
    while left > 0 {
        // What is left behind is nothing, or enough for a record.
        let next = if left >= most + least {
            most
        } else if left > most {
            least
        } else {
            left
        };
        bytes.extend(exchange(next - least));
        left -= next;
    }
    bytes.extend(END);
    bytes
}

/// An input with some bytes changed, added or removed.
fn mangled(good: &[u8], rng: &mut Rng) -> Vec<u8> {
    let mut bytes = good.to_vec();
    for _ in 0..rng.between(1, 4) {
        let place = rng.below(bytes.len() + 1);
        let value = if rng.one_in(2) {
            rng.byte()
        } else {
            *rng.pick(&TELLING)
        };
        match rng.below(3) {
            0 if place < bytes.len() => bytes[place] = value,
            1 if place < bytes.len() => drop(bytes.remove(place)),
            _ => bytes.insert(place, value),
        }
    }
    bytes
}

/// Random bytes, often behind a right mark.
fn random(rng: &mut Rng) -> Vec<u8> {
    let mut bytes = if rng.one_in(2) {
        vec![0x87, 0x49]
    } else {
        Vec::new()
    };
    let telling = rng.one_in(2);
    for _ in 0..rng.below(80) {
        bytes.push(if telling {
            *rng.pick(&TELLING)
        } else {
            rng.byte()
        });
    }
    bytes
}

#[cfg(test)]
mod tests {
    use super::of_length;
    use plain::{Outcome, read};

    #[test]
    fn inputs_of_a_length_have_it_and_are_well_formed() {
        for length in (64..200).chain([16_384, 16_385]) {
            let bytes = of_length(length);
            assert_eq!(bytes.len(), length);
            let mut at = 0;
            while let Outcome::Record { next, .. } = read(&bytes, at) {
                at = next;
            }
            assert_eq!(read(&bytes, at), Outcome::End { next: length });
        }
    }
}
