//! An instruction, and its 177 bytes.

use std::fmt;

/// Bytes of an instruction.
pub const FLAT: usize = 177;
/// Room of a text.
pub const TEXT: usize = 32;
/// Room for operands.
pub const OPERANDS: usize = 3;

/// Where the fields of an instruction begin.
const MNEMONIC: usize = 8;
const COUNT: usize = 41;
const FIRST_OPERAND: usize = 42;
const OPERAND: usize = 45;

/// A text with its length. The length may be any byte; bytes past it are
/// ignored.
#[derive(Clone, Copy, PartialEq, Eq)]
pub struct Text {
    pub len: u8,
    pub bytes: [u8; TEXT],
}

impl Text {
    pub const EMPTY: Self = Self {
        len: 0,
        bytes: [0; TEXT],
    };

    /// The text of at most 32 bytes.
    ///
    /// # Panics
    /// Where it is longer.
    #[must_use]
    pub fn new(text: &[u8]) -> Self {
        let mut bytes = [0; TEXT];
        bytes[..text.len()].copy_from_slice(text);
        let len = u8::try_from(text.len()).expect("at most 32");
        Self { len, bytes }
    }

    /// The bytes below the length.
    #[must_use]
    pub fn used(&self) -> &[u8] {
        &self.bytes[..usize::from(self.len).min(TEXT)]
    }

    /// The text as it is read: without the blanks at its two ends, bytes 9
    /// to 13 and 32, and in small letters.
    #[must_use]
    pub fn as_read(&self) -> Vec<u8> {
        let blank = |byte: &u8| matches!(byte, 9..=13 | 32);
        let text = self.used();
        let from = text.iter().take_while(|b| blank(b)).count();
        let behind = text[from..].iter().rev().take_while(|b| blank(b)).count();
        text[from..text.len() - behind].to_ascii_lowercase()
    }
}

impl fmt::Debug for Text {
    fn fmt(&self, f: &mut fmt::Formatter<'_>) -> fmt::Result {
        write!(f, "{}:\"{}\"", self.len, self.used().escape_ascii())
    }
}

/// An operand: register (text), memory (width, known, address number,
/// slot number) or other. Fields of another kind are ignored.
#[derive(Debug, Clone, Copy, PartialEq, Eq)]
pub struct Operand {
    pub kind: u8,
    pub text: Text,
    pub width: u16,
    pub known: u8,
    pub address: u32,
    pub slot: u32,
}

impl Operand {
    pub const NONE: Self = Self {
        kind: 0,
        text: Text::EMPTY,
        width: 0,
        known: 0,
        address: 0,
        slot: 0,
    };

    #[must_use]
    pub fn register(text: &[u8]) -> Self {
        Self {
            kind: crate::REGISTER,
            text: Text::new(text),
            ..Self::NONE
        }
    }

    #[must_use]
    pub fn memory(width: u16, known: bool, address: u32, slot: u32) -> Self {
        Self {
            kind: crate::MEMORY,
            width,
            known: known.into(),
            address,
            slot,
            ..Self::NONE
        }
    }

    #[must_use]
    pub fn other() -> Self {
        Self {
            kind: crate::OTHER,
            ..Self::NONE
        }
    }
}

/// An instruction: three operand records, of which the first `count` are
/// meant.
#[derive(Debug, Clone, Copy, PartialEq, Eq)]
pub struct Instruction {
    pub address: u64,
    pub mnemonic: Text,
    pub count: u8,
    pub operands: [Operand; OPERANDS],
}

impl Instruction {
    /// The instruction with these operands.
    ///
    /// # Panics
    /// Where there are more than three.
    #[must_use]
    pub fn new(address: u64, mnemonic: &[u8], given: &[Operand]) -> Self {
        let mut operands = [Operand::NONE; OPERANDS];
        operands[..given.len()].copy_from_slice(given);
        Self {
            address,
            mnemonic: Text::new(mnemonic),
            count: u8::try_from(given.len()).expect("at most 3"),
            operands,
        }
    }

    /// The operands below the count, as far as there are records.
    #[must_use]
    pub fn used(&self) -> &[Operand] {
        &self.operands[..usize::from(self.count).min(OPERANDS)]
    }

    /// Its 177 bytes.
    #[must_use]
    pub fn to_flat(&self) -> [u8; FLAT] {
        let mut flat = [0; FLAT];
        flat[..MNEMONIC].copy_from_slice(&self.address.to_le_bytes());
        put_text(&mut flat[MNEMONIC..], &self.mnemonic);
        flat[COUNT] = self.count;
        for (i, operand) in self.operands.iter().enumerate() {
            put_operand(&mut flat[FIRST_OPERAND + i * OPERAND..], operand);
        }
        flat
    }

    /// The instruction that lies in these bytes.
    #[must_use]
    pub fn from_flat(flat: &[u8; FLAT]) -> Self {
        Self {
            address: u64::from_le_bytes(part(flat, 0)),
            mnemonic: text_at(flat, MNEMONIC),
            count: flat[COUNT],
            operands: [0, 1, 2].map(|i| operand_at(flat, FIRST_OPERAND + i * OPERAND)),
        }
    }
}

fn put_text(flat: &mut [u8], text: &Text) {
    flat[0] = text.len;
    flat[1..=TEXT].copy_from_slice(&text.bytes);
}

fn put_operand(flat: &mut [u8], operand: &Operand) {
    flat[0] = operand.kind;
    put_text(&mut flat[1..], &operand.text);
    flat[34..36].copy_from_slice(&operand.width.to_le_bytes());
    flat[36] = operand.known;
    flat[37..41].copy_from_slice(&operand.address.to_le_bytes());
    flat[41..45].copy_from_slice(&operand.slot.to_le_bytes());
}

fn text_at(flat: &[u8], at: usize) -> Text {
    Text {
        len: flat[at],
        bytes: part(flat, at + 1),
    }
}

fn operand_at(flat: &[u8], at: usize) -> Operand {
    Operand {
        kind: flat[at],
        text: text_at(flat, at + 1),
        width: u16::from_le_bytes(part(flat, at + 34)),
        known: flat[at + 36],
        address: u32::from_le_bytes(part(flat, at + 37)),
        slot: u32::from_le_bytes(part(flat, at + 41)),
    }
}

fn part<const N: usize>(flat: &[u8], at: usize) -> [u8; N] {
    flat[at..at + N].try_into().expect("N bytes")
}

#[cfg(test)]
mod tests {
    use super::{FLAT, Instruction, Operand, Text};

    #[test]
    fn a_text_is_read_without_blanks_and_case() {
        let read = |text: &[u8]| Text::new(text).as_read();
        assert_eq!(read(b" \t\n\x0b\x0c\rF lD\r "), b"f ld");
        assert_eq!(read(b"\x08fld\x0e"), b"\x08fld\x0e");
        assert_eq!([read(b""), read(b" \t ")], [b"", b""]);
    }

    #[test]
    fn bytes_and_instruction_are_one_to_one() {
        let mut flat = [0; FLAT];
        for (at, byte) in flat.iter_mut().enumerate() {
            *byte = u8::try_from(at * 7 % 251).expect("a byte");
        }
        assert_eq!(Instruction::from_flat(&flat).to_flat(), flat);
    }

    #[test]
    fn fields_lie_where_they_should() {
        let memory = Operand::memory(0x1234, true, 0x0506_0708, 0x0A0B_0C0D);
        let flat = Instruction::new(0x1122, b"fld", &[Operand::other(), memory]).to_flat();
        assert_eq!(flat[..2], [0x22, 0x11]);
        assert_eq!(flat[8..12], [3, b'f', b'l', b'd']);
        assert_eq!(flat[41..43], [2, 2]);
        assert_eq!(flat[87], 1);
        assert_eq!(flat[87 + 34..87 + 37], [0x34, 0x12, 1]);
        assert_eq!(flat[87 + 37..87 + 41], [8, 7, 6, 5]);
        assert_eq!(flat[87 + 41..132], [0x0D, 0x0C, 0x0B, 0x0A]);
    }
}
