//! Decoded instructions.

use sleetgate_sys::FLAT;

/// The most bytes of a text; a longer one is refused with 3.
pub const TEXT: usize = 32;
/// The most operands; one more is refused with 4.
pub const MOST_OPERANDS: usize = 3;

/// Where the fields of an instruction begin in its bytes, and how long an
/// operand is.
const MNEMONIC: usize = 8;
const COUNT: usize = 41;
const OPERANDS: usize = 42;
const OPERAND: usize = 45;

/// A decoded instruction.
#[derive(Debug, Clone, PartialEq, Eq, Hash)]
pub struct Instruction {
    /// Where it stands; it is named by the statement of a decline.
    pub address: u64,
    /// Its name. Blanks at both ends and the case of letters are ignored.
    pub mnemonic: String,
    /// Its operands in Intel order.
    pub operands: Vec<Operand>,
}

/// A decoded operand.
#[derive(Debug, Clone, PartialEq, Eq, Hash)]
pub enum Operand {
    /// A register by its text; `st(0)` to `st(7)` are places on the
    /// stack, the bare `st` is none.
    Register(String),
    /// Memory.
    Memory {
        /// Bits that are read or written; 0 where that is not known.
        width: u16,
        /// Where it is.
        place: Place,
    },
    /// Anything else, such as an immediate.
    Other,
}

/// Where a memory operand is, as numbers that the decoder chooses: an
/// address number stands for an address expression.
#[derive(Debug, Clone, Copy, PartialEq, Eq, Hash)]
pub enum Place {
    /// The address cannot be built; the instruction declines.
    Unknown,
    /// An address; a load from it takes the next temporary.
    Address(u32),
    /// An address that is a stack slot; a load from it is named after the
    /// slot. Slot 0 is no slot.
    Slot {
        /// The address number.
        address: u32,
        /// The slot's number, from 1 on.
        slot: u32,
    },
}

impl Instruction {
    /// The instruction with these operands.
    ///
    /// ```
    /// use sleetgate::{Instruction, Operand};
    ///
    /// let insn = Instruction::new(0x401000, "fxch", [Operand::register("st(1)")]);
    /// assert_eq!(insn.operands.len(), 1);
    /// ```
    pub fn new(
        address: u64,
        mnemonic: impl Into<String>,
        operands: impl IntoIterator<Item = Operand>,
    ) -> Self {
        Self {
            address,
            mnemonic: mnemonic.into(),
            operands: operands.into_iter().collect(),
        }
    }

    /// The bytes that the library takes. Lengths and counts that are too
    /// large stay too large, so that the library refuses them.
    pub(crate) fn flat(&self) -> [u8; FLAT] {
        let mut flat = [0; FLAT];
        flat[..MNEMONIC].copy_from_slice(&self.address.to_le_bytes());
        put_text(&mut flat[MNEMONIC..], &self.mnemonic);
        flat[COUNT] = byte(self.operands.len());
        let records = flat[OPERANDS..].chunks_exact_mut(OPERAND);
        for (record, operand) in records.zip(&self.operands) {
            operand.put(record);
        }
        flat
    }

    /// The instruction in bytes that the library gave.
    pub(crate) fn of_flat(flat: &[u8; FLAT]) -> Self {
        let count = usize::from(flat[COUNT]);
        let records = flat[OPERANDS..].chunks_exact(OPERAND);
        Self {
            address: u64::from_le_bytes(part(flat, 0)),
            mnemonic: text(&flat[MNEMONIC..]),
            operands: records.take(count).map(Operand::of).collect(),
        }
    }
}

impl Operand {
    /// A register.
    ///
    /// ```
    /// # use sleetgate::Operand;
    /// assert_eq!(Operand::register("ax"), Operand::Register("ax".to_owned()));
    /// ```
    pub fn register(text: impl Into<String>) -> Self {
        Self::Register(text.into())
    }

    /// The place `st(n)` on the stack, 0 the top. There are eight of them:
    /// an instruction with `st(8)` or beyond is declined.
    ///
    /// ```
    /// # use sleetgate::{Form, Instruction, Operand, classify};
    /// assert_eq!(Operand::st(3), Operand::register("st(3)"));
    /// let form = |n| classify(&Instruction::new(0, "fxch", [Operand::st(n)]));
    /// assert_eq!(form(7)?, Some(Form::Exchange(7)));
    /// assert_eq!(form(8)?, None);
    /// # Ok::<(), sleetgate::Refusal>(())
    /// ```
    #[must_use]
    pub fn st(n: u8) -> Self {
        Self::Register(format!("st({n})"))
    }

    /// Memory of so many bits.
    ///
    /// ```
    /// # use sleetgate::{Operand, Place};
    /// let local = Operand::memory(64, Place::Slot { address: 1, slot: 2 });
    /// assert!(matches!(local, Operand::Memory { width: 64, .. }));
    /// ```
    #[must_use]
    pub fn memory(width: u16, place: Place) -> Self {
        Self::Memory { width, place }
    }

    fn put(&self, record: &mut [u8]) {
        match self {
            Self::Register(text) => put_text(&mut record[1..], text),
            Self::Memory { width, place } => {
                let (known, address, slot) = place.numbers();
                record[0] = 1;
                record[34..36].copy_from_slice(&width.to_le_bytes());
                record[36] = known;
                record[37..41].copy_from_slice(&address.to_le_bytes());
                record[41..45].copy_from_slice(&slot.to_le_bytes());
            }
            Self::Other => record[0] = 2,
        }
    }

    fn of(record: &[u8]) -> Self {
        match record[0] {
            0 => Self::Register(text(&record[1..])),
            1 => Self::Memory {
                width: u16::from_le_bytes(part(record, 34)),
                place: Place::of(
                    record[36],
                    u32::from_le_bytes(part(record, 37)),
                    u32::from_le_bytes(part(record, 41)),
                ),
            },
            _ => Self::Other,
        }
    }
}

impl Place {
    /// Known, address number, slot number.
    pub(crate) fn numbers(self) -> (u8, u32, u32) {
        match self {
            Self::Unknown => (0, 0, 0),
            Self::Address(address) => (1, address, 0),
            Self::Slot { address, slot } => (1, address, slot),
        }
    }

    fn of(known: u8, address: u32, slot: u32) -> Self {
        match (known, slot) {
            (0, _) => Self::Unknown,
            (_, 0) => Self::Address(address),
            (_, slot) => Self::Slot { address, slot },
        }
    }
}

fn put_text(flat: &mut [u8], text: &str) {
    let used = text.len().min(TEXT);
    flat[0] = byte(text.len());
    flat[1..=used].copy_from_slice(&text.as_bytes()[..used]);
}

/// The text behind its length; the library gives only ASCII.
fn text(flat: &[u8]) -> String {
    let used = usize::from(flat[0]).min(TEXT);
    String::from_utf8_lossy(&flat[1..=used]).into_owned()
}

/// A length as a byte; what is too large for one stays too large.
pub(crate) fn byte(length: usize) -> u8 {
    u8::try_from(length).unwrap_or(u8::MAX)
}

fn part<const N: usize>(flat: &[u8], at: usize) -> [u8; N] {
    let mut bytes = [0; N];
    bytes.copy_from_slice(&flat[at..at + N]);
    bytes
}
