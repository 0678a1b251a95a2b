//! Forms: what a modelled instruction does to the stack.

use sleetgate_sys::FORM;

use crate::node::Rounding;
use crate::{Instruction, Refusal};

/// A modelled instruction, resolved to what it does. The names are those
/// of r2SMT, whose x87 module the lifter is a port of; a slot is a place
/// on the stack, 0 the top.
#[derive(Debug, Clone, Copy, PartialEq, Eq, Hash)]
pub enum Form {
    /// Push a 79-bit pattern (`fld1`, `fldz`).
    PushConst(u128),
    /// Push a value converted from memory (`fld`, `fild`).
    PushMemory {
        /// Bits of the operand.
        width: u16,
        /// What they hold.
        format: MemFormat,
    },
    /// Push a copy of a slot (`fld st(i)`).
    PushSlot(u8),
    /// Convert the top into memory (`fst`, `fstp`, `fist`, `fistp`,
    /// `fisttp`).
    StoreMemory {
        /// Bits of the operand.
        width: u16,
        /// What they hold.
        format: MemFormat,
        /// Whether the top is then dropped.
        pop: bool,
        /// How the conversion rounds.
        rounding: Rounding,
    },
    /// Copy the top into a slot (`fst st(i)`, `fstp st(i)`).
    StoreSlot {
        /// The slot.
        index: u8,
        /// Whether the top is then dropped.
        pop: bool,
    },
    /// The slot `dst` becomes itself `op` the source, or the source `op`
    /// itself where `reversed`.
    Arith {
        /// The operation.
        op: Arith,
        /// The slot that is written.
        dst: u8,
        /// The other operand.
        src: Source,
        /// Whether the operands are exchanged.
        reversed: bool,
        /// Whether the top is then dropped.
        pop: bool,
    },
    /// Compare the top with a source, into the status word (`fcom` and
    /// its kin).
    CompareStatus {
        /// The other operand.
        src: Source,
        /// How many slots are then dropped.
        pops: u8,
    },
    /// Compare the top with a slot, into the flags (`fcomi` and its kin).
    CompareFlags {
        /// The other slot.
        src: u8,
        /// Whether the top is then dropped.
        pop: bool,
    },
    /// The top becomes a slot where a condition holds (`fcmovcc`).
    ConditionalMove {
        /// The slot.
        src: u8,
        /// The condition.
        condition: Condition,
    },
    /// The status word into `ax` or memory (`fnstsw`, `fstsw`).
    StoreStatus,
    /// Exchange the top and a slot (`fxch`).
    Exchange(u8),
    /// In place on the top.
    Unary(Unary),
}

/// What a memory operand holds.
#[derive(Debug, Clone, Copy, PartialEq, Eq, Hash)]
pub enum MemFormat {
    /// A float.
    Float,
    /// A signed integer.
    Integer,
}

/// The second operand of an arithmetic instruction or a compare.
#[derive(Debug, Clone, Copy, PartialEq, Eq, Hash)]
pub enum Source {
    /// A slot.
    Slot(u8),
    /// Memory.
    Memory {
        /// Bits of the operand.
        width: u16,
        /// What they hold.
        format: MemFormat,
    },
}

/// The arithmetic of the stack.
#[derive(Debug, Clone, Copy, PartialEq, Eq, Hash)]
#[allow(missing_docs)]
pub enum Arith {
    Add,
    Sub,
    Mul,
    Div,
}

/// The condition of a `fcmovcc`.
#[derive(Debug, Clone, Copy, PartialEq, Eq, Hash)]
#[allow(missing_docs)]
pub enum Condition {
    Below,
    Equal,
    BelowOrEqual,
    Unordered,
    NotBelow,
    NotEqual,
    NotBelowOrEqual,
    NotUnordered,
}

/// What is done to the top in place.
#[derive(Debug, Clone, Copy, PartialEq, Eq, Hash)]
#[allow(missing_docs)]
pub enum Unary {
    Abs,
    Chs,
    Sqrt,
    RoundToIntegral,
}

/// The form of an instruction; `None` where the lifter does not model it,
/// and [`why`](crate::why()) tells why.
///
/// ```
/// use sleetgate::{Arith, Form, Instruction, Operand, Source, classify};
///
/// let operands = ["st(1)", "st(0)"].map(Operand::register);
/// let form = classify(&Instruction::new(0, "fsubrp", operands))?;
/// let expected = Form::Arith { op: Arith::Sub, dst: 1, src: Source::Slot(0), reversed: true, pop: true };
/// assert_eq!(form, Some(expected));
/// assert_eq!(classify(&Instruction::new(0, "fsin", []))?, None);
/// # Ok::<(), sleetgate::Refusal>(())
/// ```
///
/// # Errors
/// [`Refusal::Shape`], [`Refusal::Text`].
pub fn classify(insn: &Instruction) -> Result<Option<Form>, Refusal> {
    let mut words = [0; FORM];
    let number = sleetgate_sys::classify(&insn.flat(), &mut words);
    match Refusal::told(number, 0) {
        Some(refusal) => Err(refusal),
        None => Ok((number == 0).then(|| form(words))),
    }
}

/// The form of the library's eight words, which are proved to be those of
/// one.
fn form(words: [u64; FORM]) -> Form {
    let [kind, a, b, c, d, ..] = words;
    match kind {
        1 => Form::PushConst(u128::from(b) << 64 | u128::from(a)),
        2 => Form::PushMemory {
            width: small(a),
            format: format(b),
        },
        3 => Form::PushSlot(slot(a)),
        4 => Form::StoreMemory {
            width: small(a),
            format: format(b),
            pop: c != 0,
            rounding: Rounding::of(d).unwrap_or_else(|| unknown(d)),
        },
        5 => Form::StoreSlot {
            index: slot(a),
            pop: b != 0,
        },
        6 => arith(words),
        7 => Form::CompareStatus {
            src: source(a, b, c),
            pops: slot(d),
        },
        8 => Form::CompareFlags {
            src: slot(a),
            pop: b != 0,
        },
        9 => Form::ConditionalMove {
            src: slot(a),
            condition: condition(b),
        },
        10 => Form::StoreStatus,
        11 => Form::Exchange(slot(a)),
        12 => Form::Unary(unary(a)),
        _ => unknown(kind),
    }
}

fn arith([_, op, dst, kind, which, format, reversed, pop]: [u64; FORM]) -> Form {
    Form::Arith {
        op: match op {
            0 => Arith::Add,
            1 => Arith::Sub,
            2 => Arith::Mul,
            3 => Arith::Div,
            _ => unknown(op),
        },
        dst: slot(dst),
        src: source(kind, which, format),
        reversed: reversed != 0,
        pop: pop != 0,
    }
}

fn source(kind: u64, which: u64, of: u64) -> Source {
    match kind {
        0 => Source::Slot(slot(which)),
        1 => Source::Memory {
            width: small(which),
            format: format(of),
        },
        _ => unknown(kind),
    }
}

fn format(number: u64) -> MemFormat {
    match number {
        0 => MemFormat::Float,
        1 => MemFormat::Integer,
        _ => unknown(number),
    }
}

fn condition(number: u64) -> Condition {
    match number {
        0 => Condition::Below,
        1 => Condition::Equal,
        2 => Condition::BelowOrEqual,
        3 => Condition::Unordered,
        4 => Condition::NotBelow,
        5 => Condition::NotEqual,
        6 => Condition::NotBelowOrEqual,
        7 => Condition::NotUnordered,
        _ => unknown(number),
    }
}

fn unary(number: u64) -> Unary {
    match number {
        0 => Unary::Abs,
        1 => Unary::Chs,
        2 => Unary::Sqrt,
        3 => Unary::RoundToIntegral,
        _ => unknown(number),
    }
}

fn slot(word: u64) -> u8 {
    u8::try_from(word).unwrap_or_else(|_| unknown(word))
}

fn small(word: u64) -> u16 {
    u16::try_from(word).unwrap_or_else(|_| unknown(word))
}

/// A word that no form has: the library is proved to give none.
fn unknown(word: u64) -> ! {
    panic!("the library answered a form with {word}")
}
