//! Instructions for a run: first a grid of all names and operands, then
//! random ones.

use plain::{FLAT, Instruction, OPERANDS, Operand, TEXT, Text};

use crate::names::{self, NAMES};
use crate::operands::{self, PLACES};
use crate::rng::Rng;

/// All names with every operand list of up to two operands, and with
/// every list of three from a shorter choice.
pub struct Grid {
    names: Vec<Vec<u8>>,
    all: Vec<Operand>,
    few: Vec<Operand>,
}

impl Default for Grid {
    fn default() -> Self {
        Self {
            names: names::all(),
            all: operands::all(),
            few: operands::few(),
        }
    }
}

impl Grid {
    #[must_use]
    pub fn len(&self) -> usize {
        self.names.len() * self.per_name()
    }

    #[must_use]
    pub fn is_empty(&self) -> bool {
        self.len() == 0
    }

    fn per_name(&self) -> usize {
        let (all, few) = (self.all.len(), self.few.len());
        1 + all + all * all + few * few * few
    }

    /// The instruction of that number, which is below the length.
    #[must_use]
    pub fn at(&self, number: usize) -> Instruction {
        let name = &self.names[number / self.per_name()];
        let given = self.operands(number % self.per_name());
        Instruction::new(number as u64, name, &given)
    }

    fn operands(&self, number: usize) -> Vec<Operand> {
        let (all, few) = (self.all.len(), self.few.len());
        if number == 0 {
            return Vec::new();
        }
        let number = number - 1;
        if number < all {
            return vec![self.all[number]];
        }
        let number = number - all;
        if number < all * all {
            return vec![self.all[number / all], self.all[number % all]];
        }
        let number = number - all * all;
        [number / few / few, number / few % few, number % few]
            .map(|i| self.few[i])
            .to_vec()
    }

    /// A random instruction in the domain: a name and operands of the
    /// grid, of which some texts are changed a little. Names of the 56
    /// and usual operands are frequent, so that many are modelled.
    pub fn random(&self, rng: &mut Rng) -> Instruction {
        let (name, count) = if rng.one_in(3) {
            (rng.pick(&self.names), rng.below(OPERANDS + 1))
        } else {
            (&self.names[rng.below(NAMES.len())], rng.below(OPERANDS))
        };
        let mut insn = Instruction {
            address: rng.word(),
            mnemonic: Text::new(name),
            count: u8::try_from(count).expect("at most 3"),
            operands: [0; OPERANDS].map(|_| self.random_operand(rng)),
        };
        if rng.one_in(6) {
            change_text(&mut insn.mnemonic, rng);
        }
        insn
    }

    fn random_operand(&self, rng: &mut Rng) -> Operand {
        let mut operand = if rng.one_in(2) {
            usual(rng)
        } else {
            *rng.pick(&self.all)
        };
        if operand.kind == plain::REGISTER && rng.one_in(6) {
            change_text(&mut operand.text, rng);
        }
        if operand.kind == plain::MEMORY {
            operand.address = half_word(rng);
            operand.slot = if rng.one_in(2) { 0 } else { half_word(rng) };
            if rng.one_in(8) {
                operand.width = rng.word().to_le_bytes()[0].into();
            }
        }
        operand
    }
}

/// A place, or memory of a width that some instruction takes.
fn usual(rng: &mut Rng) -> Operand {
    if rng.one_in(2) {
        return Operand::register(rng.pick(&PLACES).as_bytes());
    }
    Operand::memory(*rng.pick(&[16, 32, 64, 80]), true, 0, 0)
}

fn half_word(rng: &mut Rng) -> u32 {
    u32::try_from(rng.word() >> 32).expect("32 bits")
}

/// Bytes that matter in a text.
const TELLING: &[u8] = b"st(01278+-) \t\n\x08\x0e\x1f\x7fpfld\0STax";

/// Change, add or remove one byte; the text stays ASCII and fits.
fn change_text(text: &mut Text, rng: &mut Rng) {
    let mut bytes = text.used().to_vec();
    let at = rng.below(bytes.len() + 1);
    let byte = *rng.pick(TELLING);
    match rng.below(3) {
        0 if at < bytes.len() => bytes[at] = byte,
        1 if at < bytes.len() => drop(bytes.remove(at)),
        _ if bytes.len() < TEXT => bytes.insert(at, byte),
        _ => {}
    }
    *text = Text::new(&bytes);
}

/// Fill what must be ignored with random bytes: bytes past a text's
/// length, fields of another kind, records past the count.
pub fn fill_unused(insn: &mut Instruction, rng: &mut Rng) {
    fill_text(&mut insn.mnemonic, rng);
    let count = usize::from(insn.count);
    for (i, operand) in insn.operands.iter_mut().enumerate() {
        let noise = random_operand_bytes(rng);
        match operand.kind {
            _ if i >= count => *operand = noise,
            plain::REGISTER => {
                fill_text(&mut operand.text, rng);
                let text = operand.text;
                *operand = Operand {
                    kind: plain::REGISTER,
                    text,
                    ..noise
                };
            }
            plain::MEMORY => operand.text = noise.text,
            _ => {
                *operand = Operand {
                    kind: operand.kind,
                    ..noise
                }
            }
        }
    }
}

fn fill_text(text: &mut Text, rng: &mut Rng) {
    let used = usize::from(text.len).min(TEXT);
    for byte in &mut text.bytes[used..] {
        *byte = rng.byte();
    }
}

/// An operand of random bytes in every field.
fn random_operand_bytes(rng: &mut Rng) -> Operand {
    let mut flat = [0; FLAT];
    for byte in &mut flat {
        *byte = rng.byte();
    }
    Instruction::from_flat(&flat).operands[0]
}

/// Put one thing out of its range: a length, a byte, a count, a kind or
/// a flag. What is put may still be ignored, where it lies past a count
/// or in a field of another kind.
pub fn put_out_of_range(insn: &mut Instruction, rng: &mut Rng) {
    let operand = rng.below(OPERANDS);
    match rng.below(7) {
        0 => insn.mnemonic.len = over(TEXT, rng),
        1 => high_byte(&mut insn.mnemonic, rng),
        2 => insn.count = over(OPERANDS, rng),
        3 => insn.operands[operand].kind = over(2, rng),
        4 => insn.operands[operand].known = over(1, rng),
        5 => insn.operands[operand].text.len = over(TEXT, rng),
        _ => high_byte(&mut insn.operands[operand].text, rng),
    }
}

/// A byte over the limit, often just one over it.
fn over(limit: usize, rng: &mut Rng) -> u8 {
    let value = if rng.one_in(2) {
        limit + 1
    } else {
        rng.between(limit + 1, 255)
    };
    u8::try_from(value).expect("a byte")
}

/// A byte over 127 somewhere in the text's room.
fn high_byte(text: &mut Text, rng: &mut Rng) {
    text.bytes[rng.below(TEXT)] = over(127, rng);
}

#[cfg(test)]
mod tests {
    use super::Grid;

    #[test]
    fn the_grid_is_large_enough() {
        assert!(Grid::default().len() >= 2_000_000);
    }
}
