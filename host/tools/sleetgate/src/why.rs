//! Why an instruction is declined.

use std::fmt;

use sleetgate_sys::DETAIL;

use crate::{Instruction, Refusal};

/// Why an instruction was declined.
///
/// ```
/// use sleetgate::{Detail, Instruction, Lifter, Statement, Why};
///
/// let mut lifter = Lifter::default();
/// lifter.lift(&Instruction::new(0x10, "fsin", []))?;
/// let Some(Statement::Unsupported { answer, .. }) = lifter.statements().get(0) else { panic!() };
/// assert_eq!((answer, answer.number()), (Why::Form(Detail::UnknownName), 1));
/// assert_eq!(answer.to_string(), "the lifter does not know its name");
/// # Ok::<(), sleetgate::Refusal>(())
/// ```
#[derive(Debug, Clone, Copy, PartialEq, Eq, Hash)]
pub enum Why {
    /// 1: its form is not modelled, and what of it.
    Form(Detail),
    /// 2: it pushes onto a full stack.
    Overflow,
}

impl Why {
    /// The answer's number: 1 or 2, as in the row of a statement.
    #[must_use]
    pub fn number(self) -> u32 {
        match self {
            Self::Form(_) => 1,
            Self::Overflow => 2,
        }
    }

    /// What of its form is not modelled; `None` for an overflow.
    ///
    /// ```
    /// # use sleetgate::{Detail, Why};
    /// assert_eq!(Why::Form(Detail::Width).detail(), Some(Detail::Width));
    /// assert_eq!(Why::Overflow.detail(), None);
    /// ```
    #[must_use]
    pub fn detail(self) -> Option<Detail> {
        match self {
            Self::Form(detail) => Some(detail),
            Self::Overflow => None,
        }
    }

    /// What an answer and the number of its detail say, as they stand in
    /// the row of a statement; `None` for a pair that no statement has.
    ///
    /// ```
    /// # use sleetgate::{Detail, Why};
    /// assert_eq!(Why::of(1, 25), Some(Why::Form(Detail::Width)));
    /// assert_eq!(Why::of(2, 0), Some(Why::Overflow));
    /// assert_eq!((Why::of(1, 0), Why::of(2, 25)), (None, None));
    /// ```
    #[must_use]
    pub fn of(answer: u32, detail: u64) -> Option<Self> {
        match (answer, detail) {
            (1, detail) => Detail::of(detail).map(Self::Form),
            (2, 0) => Some(Self::Overflow),
            _ => None,
        }
    }

    /// Why the library declined, if it did.
    ///
    /// # Panics
    /// Where the two numbers are neither zeros nor those of a decline: the
    /// library is proved to give none such.
    pub(crate) fn told(answer: u32, detail: u64) -> Option<Self> {
        let why = Self::of(answer, detail);
        assert!(
            why.is_some() || (answer, detail) == (0, 0),
            "the library answered {answer} with the detail {detail}"
        );
        why
    }
}

/// The words of its [`Detail`], or `pushes onto a full stack`.
impl fmt::Display for Why {
    fn fmt(&self, f: &mut fmt::Formatter<'_>) -> fmt::Result {
        match self {
            Self::Form(detail) => detail.fmt(f),
            Self::Overflow => f.pad("pushes onto a full stack"),
        }
    }
}

/// What of an instruction's form is not modelled. Where more than one of
/// them holds, it is the first.
///
/// ```
/// use sleetgate::{Detail, Instruction, Operand, Place, why};
///
/// let fist = |width, place| Instruction::new(0, "fist", [Operand::memory(width, place)]);
/// assert_eq!(why(&fist(64, Place::Address(1)))?, Some(Detail::Width));
/// assert_eq!(why(&fist(64, Place::Unknown))?, Some(Detail::UnknownAddress));
/// # Ok::<(), sleetgate::Refusal>(())
/// ```
#[derive(Debug, Clone, Copy, PartialEq, Eq, PartialOrd, Ord, Hash)]
pub enum Detail {
    /// 21: the lifter does not know its name.
    UnknownName,
    /// 22: its name takes another number of operands.
    OperandCount,
    /// 23: an operand is of a kind that its name does not take, or a
    /// register that it does not take; or it is a place other than `st(0)`
    /// where only that is taken.
    OperandKind,
    /// 24: the address of its memory operand is not known.
    UnknownAddress,
    /// 25: the width of its memory operand is not known, or its name does
    /// not take it.
    Width,
}

impl Detail {
    /// All of them, in the order of their numbers.
    pub const ALL: [Self; 5] = [
        Self::UnknownName,
        Self::OperandCount,
        Self::OperandKind,
        Self::UnknownAddress,
        Self::Width,
    ];

    /// Its number, 21 to 25, as in the row of a statement.
    #[must_use]
    pub fn number(self) -> u64 {
        match self {
            Self::UnknownName => 21,
            Self::OperandCount => 22,
            Self::OperandKind => 23,
            Self::UnknownAddress => 24,
            Self::Width => 25,
        }
    }

    /// The detail of a number; `None` for any but 21 to 25.
    ///
    /// ```
    /// # use sleetgate::Detail;
    /// assert_eq!(Detail::of(21), Some(Detail::UnknownName));
    /// assert_eq!((Detail::of(0), Detail::of(26)), (None, None));
    /// ```
    #[must_use]
    pub fn of(number: u64) -> Option<Self> {
        let mut all = Self::ALL.into_iter();
        all.find(|detail| detail.number() == number)
    }

    fn words(self) -> &'static str {
        match self {
            Self::UnknownName => "the lifter does not know its name",
            Self::OperandCount => "its name takes another number of operands",
            Self::OperandKind => {
                "an operand is of a kind, or a register, that its name does not take"
            }
            Self::UnknownAddress => "the address of its memory operand is not known",
            Self::Width => {
                "the width of its memory operand is not known, or its name does not take it"
            }
        }
    }
}

/// A sentence about the instruction, which is `it` there.
///
/// ```
/// # use sleetgate::Detail;
/// let words = "its name takes another number of operands";
/// assert_eq!(Detail::OperandCount.to_string(), words);
/// ```
impl fmt::Display for Detail {
    fn fmt(&self, f: &mut fmt::Formatter<'_>) -> fmt::Result {
        f.pad(self.words())
    }
}

/// Why an instruction is declined, whatever the state; `None` where the
/// lifter models it. That a push finds the stack full, only a lift tells.
///
/// ```
/// use sleetgate::{Detail, Instruction, Operand, why};
///
/// let fxch = |operands: &[Operand]| why(&Instruction::new(0, "fxch", operands.to_vec()));
/// assert_eq!(fxch(&[Operand::st(1)])?, None);
/// assert_eq!(fxch(&[Operand::st(0), Operand::st(1)])?, Some(Detail::OperandCount));
/// assert_eq!(fxch(&[Operand::register("eax")])?, Some(Detail::OperandKind));
/// # Ok::<(), sleetgate::Refusal>(())
/// ```
///
/// # Errors
/// [`Refusal::Shape`], [`Refusal::Text`].
pub fn why(insn: &Instruction) -> Result<Option<Detail>, Refusal> {
    let mut out = [0; DETAIL];
    let number = sleetgate_sys::why(&insn.flat(), &mut out);
    match Refusal::told(number, 0) {
        Some(refusal) => Err(refusal),
        None => Ok(Why::told(number, out[0]).and_then(Why::detail)),
    }
}
