//! Records: instructions as bytes, as the program `x87lift` reads them.

use sleetgate_sys::{FLAT, READ};

use crate::instruction::byte;
use crate::{Instruction, MOST_OPERANDS, Operand, Refusal, RefusedRecord, TEXT};

/// The most bytes that the program takes.
pub const MOST_BYTES: usize = 16_384;

/// The marks of a record and of the end.
const RECORD: [u8; 2] = [0x87, 0x49];
const END: [u8; 2] = [0x87, 0x45];

/// What stands at a place of an input.
#[derive(Debug, Clone, PartialEq, Eq)]
pub enum Item {
    /// A record, and the place after it.
    Record {
        /// Its instruction.
        insn: Instruction,
        /// Where the next item stands.
        next: usize,
    },
    /// The end of the input.
    End,
}

/// Read what stands at `at`.
///
/// ```
/// use sleetgate::{Instruction, Item, Operand, Refusal, read_record, write_end, write_record};
///
/// let insn = Instruction::new(0x401000, "fld", [Operand::register("st(1)")]);
/// let mut bytes = Vec::new();
/// write_record(&insn, &mut bytes)?;
/// let next = bytes.len();
/// write_end(&mut bytes);
/// assert_eq!(read_record(&bytes, 0), Ok(Item::Record { insn, next }));
/// assert_eq!(read_record(&bytes, next), Ok(Item::End));
/// let refused = read_record(&bytes, 1).unwrap_err();
/// assert_eq!((refused.refusal, refused.place), (Refusal::Mark, 1));
/// # Ok::<(), Refusal>(())
/// ```
///
/// # Errors
/// [`Refusal::Text`], [`Refusal::Shape`], [`Refusal::Mark`] or
/// [`Refusal::EndsEarly`], whichever comes first in reading order.
pub fn read_record(input: &[u8], at: usize) -> Result<Item, RefusedRecord> {
    let (mut flat, mut out) = ([0; FLAT], [0; READ]);
    let number = sleetgate_sys::read_record(input, at, &mut flat, &mut out);
    let place = place(out[0]);
    match Refusal::told(number, 0) {
        Some(refusal) => Err(RefusedRecord { refusal, place }),
        None if out[1] == 0 => Ok(Item::End),
        None => Ok(Item::Record {
            insn: Instruction::of_flat(&flat),
            next: place,
        }),
    }
}

/// A place as the library gives it: at most the input's length.
pub(crate) fn place(word: u64) -> usize {
    usize::try_from(word).unwrap_or(usize::MAX)
}

/// Add the record of an instruction.
///
/// ```
/// # use sleetgate::{Instruction, write_record};
/// let mut bytes = Vec::new();
/// write_record(&Instruction::new(16, "fld1", []), &mut bytes)?;
/// assert_eq!(bytes, [0x87, 0x49, 16, 0, 0, 0, 0, 0, 0, 0, 4, b'f', b'l', b'd', b'1', 0]);
/// # Ok::<(), sleetgate::Refusal>(())
/// ```
///
/// # Errors
/// [`Refusal::Shape`], then [`Refusal::Text`]: such an instruction has no
/// record. Nothing is added then.
pub fn write_record(insn: &Instruction, bytes: &mut Vec<u8>) -> Result<(), Refusal> {
    if insn.operands.len() > MOST_OPERANDS {
        return Err(Refusal::Shape);
    }
    let registers = insn.operands.iter().filter_map(|operand| match operand {
        Operand::Register(text) => Some(text),
        _ => None,
    });
    let mut texts = registers.chain([&insn.mnemonic]);
    if texts.any(|text| text.len() > TEXT || !text.is_ascii()) {
        return Err(Refusal::Text);
    }
    bytes.extend(RECORD);
    bytes.extend(insn.address.to_le_bytes());
    put_text(&insn.mnemonic, bytes);
    bytes.push(byte(insn.operands.len()));
    for operand in &insn.operands {
        put_operand(operand, bytes);
    }
    Ok(())
}

/// Add the end mark.
///
/// ```
/// let mut bytes = Vec::new();
/// sleetgate::write_end(&mut bytes);
/// assert_eq!(bytes, [0x87, 0x45]);
/// ```
pub fn write_end(bytes: &mut Vec<u8>) {
    bytes.extend(END);
}

fn put_text(text: &str, bytes: &mut Vec<u8>) {
    bytes.push(byte(text.len()));
    bytes.extend(text.as_bytes());
}

fn put_operand(operand: &Operand, bytes: &mut Vec<u8>) {
    match operand {
        Operand::Register(text) => {
            bytes.push(0);
            put_text(text, bytes);
        }
        Operand::Memory { width, place } => {
            let (known, address, slot) = place.numbers();
            bytes.push(1);
            bytes.extend(width.to_le_bytes());
            bytes.push(known);
            bytes.extend(address.to_le_bytes());
            bytes.extend(slot.to_le_bytes());
        }
        Operand::Other => bytes.push(2),
    }
}
