//! Records, read one byte at a time.

use crate::{
    BAD_SHAPE, BAD_TEXT, ENDS_EARLY, Instruction, MEMORY, OPERANDS, OTHER, Operand, REGISTER, TEXT,
    Text, WRONG_MARK,
};

/// The marks: the first byte is shared.
const MARK: u8 = 0x87;
const RECORD: u8 = 0x49;
const END: u8 = 0x45;

/// What stands at a place of the input.
#[derive(Debug, Clone, PartialEq, Eq)]
pub enum Outcome {
    /// A record, and the place after it.
    Record { insn: Instruction, next: usize },
    /// The end mark with nothing behind it, and the place after it.
    End { next: usize },
    /// The first offence in reading order, with the offending place.
    Refused { number: u32, place: usize },
}

/// An offence: its number and its place.
struct Offence(u32, usize);

type Read<T> = Result<T, Offence>;

/// What stands at `at`.
#[must_use]
pub fn read(input: &[u8], at: usize) -> Outcome {
    let mut cursor = Cursor { input, at };
    match cursor.item() {
        Ok(Some(insn)) => Outcome::Record {
            insn,
            next: cursor.at,
        },
        Ok(None) => Outcome::End { next: cursor.at },
        Err(Offence(number, place)) => Outcome::Refused { number, place },
    }
}

struct Cursor<'a> {
    input: &'a [u8],
    at: usize,
}

impl Cursor<'_> {
    /// The next byte, if it is a good one: an offence is at the byte's
    /// own place, and a missing byte at the input's length.
    fn byte(&mut self, number: u32, good: impl Fn(u8) -> bool) -> Read<u8> {
        let Some(&byte) = self.input.get(self.at) else {
            return Err(Offence(ENDS_EARLY, self.input.len()));
        };
        if !good(byte) {
            return Err(Offence(number, self.at));
        }
        self.at += 1;
        Ok(byte)
    }

    /// A number of `N` bytes, low byte first.
    fn number<const N: usize>(&mut self) -> Read<[u8; N]> {
        let mut bytes = [0; N];
        for b in &mut bytes {
            *b = self.byte(0, |_| true)?;
        }
        Ok(bytes)
    }

    fn text(&mut self) -> Read<Text> {
        let len = self.byte(BAD_TEXT, |b| usize::from(b) <= TEXT)?;
        let mut text = Text { len, ..Text::EMPTY };
        for b in &mut text.bytes[..len.into()] {
            *b = self.byte(BAD_TEXT, |b| b <= 127)?;
        }
        Ok(text)
    }

    fn operand(&mut self) -> Read<Operand> {
        let kind = self.byte(BAD_SHAPE, |b| b <= OTHER)?;
        let mut operand = Operand {
            kind,
            ..Operand::NONE
        };
        if kind == REGISTER {
            operand.text = self.text()?;
        }
        if kind == MEMORY {
            operand.width = u16::from_le_bytes(self.number()?);
            operand.known = self.byte(BAD_SHAPE, |b| b <= 1)?;
            operand.address = u32::from_le_bytes(self.number()?);
            operand.slot = u32::from_le_bytes(self.number()?);
        }
        Ok(operand)
    }

    fn instruction(&mut self) -> Read<Instruction> {
        let address = u64::from_le_bytes(self.number()?);
        let mnemonic = self.text()?;
        let count = self.byte(BAD_SHAPE, |b| usize::from(b) <= OPERANDS)?;
        let mut operands = [Operand::NONE; OPERANDS];
        for operand in &mut operands[..count.into()] {
            *operand = self.operand()?;
        }
        Ok(Instruction {
            address,
            mnemonic,
            count,
            operands,
        })
    }

    /// A record, or the end with nothing behind it.
    fn item(&mut self) -> Read<Option<Instruction>> {
        self.byte(WRONG_MARK, |b| b == MARK)?;
        if self.byte(WRONG_MARK, |b| b == RECORD || b == END)? == RECORD {
            return self.instruction().map(Some);
        }
        match self.input.get(self.at) {
            Some(_) => Err(Offence(WRONG_MARK, self.at)),
            None => Ok(None),
        }
    }
}

/// The record of an instruction.
#[must_use]
pub fn record(insn: &Instruction) -> Vec<u8> {
    let mut bytes = vec![MARK, RECORD];
    bytes.extend(insn.address.to_le_bytes());
    put_text(&mut bytes, &insn.mnemonic);
    bytes.push(insn.count);
    for operand in insn.used() {
        put_operand(&mut bytes, operand);
    }
    bytes
}

fn put_text(bytes: &mut Vec<u8>, text: &Text) {
    bytes.push(text.len);
    bytes.extend(text.used());
}

fn put_operand(bytes: &mut Vec<u8>, operand: &Operand) {
    bytes.push(operand.kind);
    if operand.kind == REGISTER {
        put_text(bytes, &operand.text);
    }
    if operand.kind == MEMORY {
        bytes.extend(operand.width.to_le_bytes());
        bytes.push(operand.known);
        bytes.extend(operand.address.to_le_bytes());
        bytes.extend(operand.slot.to_le_bytes());
    }
}

#[cfg(test)]
mod tests {
    use super::{Outcome, read, record};
    use crate::{Instruction, Operand};

    fn refused(number: u32, place: usize) -> Outcome {
        Outcome::Refused { number, place }
    }

    #[test]
    fn a_record_is_read_back() {
        let operands = [
            Operand::register(b"st(1)"),
            Operand::memory(80, true, 9, 7),
            Operand::other(),
        ];
        let insn = Instruction::new(0x1234_5678_9abc_def0, b"fld", &operands);
        let bytes = record(&insn);
        let next = bytes.len();
        assert_eq!(read(&bytes, 0), Outcome::Record { insn, next });
        for cut in 0..next {
            assert_eq!(read(&bytes[..cut], 0), refused(12, cut));
        }
    }

    #[test]
    fn the_end_stands_alone() {
        assert_eq!(read(&[0x87, 0x45], 0), Outcome::End { next: 2 });
        assert_eq!(read(&[0x87, 0x45, 0x87], 0), refused(11, 2));
    }

    #[test]
    fn places_of_offences() {
        assert_eq!(read(&[], 0), refused(12, 0));
        assert_eq!(read(&[0x87, 0x45], 9), refused(12, 2));
        assert_eq!(read(&[0x86, 0x45], 0), refused(11, 0));
        assert_eq!(read(&[0x87, 0x44], 0), refused(11, 1));
        let mut bytes = record(&Instruction::new(0, b"fld", &[Operand::other()]));
        bytes[14] = 4;
        assert_eq!(read(&bytes, 0), refused(4, 14));
        bytes[12] = 128;
        assert_eq!(read(&bytes, 0), refused(3, 12));
        bytes[10] = 33;
        assert_eq!(read(&bytes, 0), refused(3, 10));
    }
}
