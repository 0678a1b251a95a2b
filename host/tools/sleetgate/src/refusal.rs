//! The numbered refusals.

use std::error::Error;
use std::fmt;

/// Why a call was refused, by the numbers of the manual's section 7. A
/// refused call changes nothing.
///
/// ```
/// use sleetgate::{Instruction, Refusal, classify};
///
/// let long = Instruction::new(0, "f".repeat(33), []);
/// let refusal = classify(&long).unwrap_err();
/// assert_eq!((refusal, refusal.number()), (Refusal::Text, 3));
/// assert_eq!(refusal.to_string(), "refused (3): a text over 32 bytes, or a byte over 127");
/// ```
#[derive(Debug, Clone, Copy, PartialEq, Eq, Hash)]
pub enum Refusal {
    /// 3: a text over 32 bytes, or a byte over 127.
    Text,
    /// 4: more than three operands, or a kind or flag out of range.
    Shape,
    /// 5: the [state](crate::State) is not valid.
    State,
    /// 6: the nodes of the whole instruction do not fit.
    NodeRoom,
    /// 7: the statements of the whole instruction do not fit.
    StatementRoom,
    /// 8: a node has no [sort](crate::Sort).
    Sort {
        /// The first such node.
        node: usize,
    },
    /// 9: a given value or a pattern is too wide.
    Wide {
        /// The first node whose value does not fit; 0 for an image.
        node: usize,
    },
    /// 10: a column or an image is too short, or there are more nodes
    /// than a list has room for.
    Short,
    /// 11: a wrong mark.
    Mark,
    /// 12: the bytes end early.
    EndsEarly,
    /// 13: an input over 16,384 bytes.
    TooLong,
    /// 31: the root of a formula is not in the list.
    Root,
    /// 32: an SMT-LIB text does not fit. [`write`](crate::smt_lib::write)
    /// lends more then.
    TextRoom,
    /// 41: no SMT-LIB text of the kind that [`write`](crate::smt_lib::write)
    /// makes.
    Syntax {
        /// How many of the bytes begin such a text. With the next one they
        /// do not, or there is none.
        place: usize,
    },
}

impl Refusal {
    /// Its number: 3 to 13, 31, 32 or 41.
    #[must_use]
    pub fn number(self) -> u32 {
        match self {
            Self::Text => 3,
            Self::Shape => 4,
            Self::State => 5,
            Self::NodeRoom => 6,
            Self::StatementRoom => 7,
            Self::Sort { .. } => 8,
            Self::Wide { .. } => 9,
            Self::Short => 10,
            Self::Mark => 11,
            Self::EndsEarly => 12,
            Self::TooLong => 13,
            Self::Root => 31,
            Self::TextRoom => 32,
            Self::Syntax { .. } => 41,
        }
    }

    /// The node that the refusal names.
    #[must_use]
    pub fn node(self) -> Option<usize> {
        match self {
            Self::Sort { node } | Self::Wide { node } => Some(node),
            _ => None,
        }
    }

    /// The refusal of a number, with the node or the place beside it;
    /// `None` for 0 to 2, and for all numbers that are none.
    ///
    /// ```
    /// # use sleetgate::Refusal;
    /// assert_eq!(Refusal::of(8, 5), Some(Refusal::Sort { node: 5 }));
    /// assert_eq!(Refusal::of(2, 0), None);
    /// ```
    #[must_use]
    pub fn of(number: u32, named: usize) -> Option<Self> {
        let (node, place) = (named, named);
        Some(match number {
            3 => Self::Text,
            4 => Self::Shape,
            5 => Self::State,
            6 => Self::NodeRoom,
            7 => Self::StatementRoom,
            8 => Self::Sort { node },
            9 => Self::Wide { node },
            10 => Self::Short,
            11 => Self::Mark,
            12 => Self::EndsEarly,
            13 => Self::TooLong,
            31 => Self::Root,
            32 => Self::TextRoom,
            41 => Self::Syntax { place },
            _ => return None,
        })
    }

    /// The refusal that the library answered, if it did.
    ///
    /// # Panics
    /// Where it is no number of an answer: the library is proved to give
    /// none such.
    pub(crate) fn told(number: u32, named: u64) -> Option<Self> {
        let refusal = Self::of(number, usize::try_from(named).unwrap_or(usize::MAX));
        assert!(
            refusal.is_some() || number <= 2,
            "the library answered {number}"
        );
        refusal
    }

    fn words(self) -> &'static str {
        match self {
            Self::Text => "a text over 32 bytes, or a byte over 127",
            Self::Shape => "more than three operands, or a kind or flag out of range",
            Self::State => "the state is not valid",
            Self::NodeRoom => "no room for the instruction's nodes",
            Self::StatementRoom => "no room for the instruction's statements",
            Self::Sort { .. } => "a node without a sort",
            Self::Wide { .. } => "a value that is too wide",
            Self::Short => "a column, an image or a list is too short",
            Self::Mark => "a wrong mark",
            Self::EndsEarly => "the bytes end early",
            Self::TooLong => "an input over 16,384 bytes",
            Self::Root => "the root is not in the list",
            Self::TextRoom => "the text does not fit",
            Self::Syntax { .. } => "not a text of the subset",
        }
    }
}

impl fmt::Display for Refusal {
    fn fmt(&self, f: &mut fmt::Formatter<'_>) -> fmt::Result {
        write!(f, "refused ({}): {}", self.number(), self.words())?;
        match self {
            Self::Sort { node } | Self::Wide { node } => write!(f, ", node {node}"),
            Self::Syntax { place } => write!(f, ", at byte {place}"),
            _ => Ok(()),
        }
    }
}

impl Error for Refusal {}

/// A refusal with the place in the input that it is about.
#[derive(Debug, Clone, Copy, PartialEq, Eq, Hash)]
pub struct RefusedRecord {
    /// Why.
    pub refusal: Refusal,
    /// The offending byte's place; for a refusal of the lifter the place
    /// of its record.
    pub place: usize,
}

impl fmt::Display for RefusedRecord {
    fn fmt(&self, f: &mut fmt::Formatter<'_>) -> fmt::Result {
        write!(f, "{}, at byte {}", self.refusal, self.place)
    }
}

impl Error for RefusedRecord {
    fn source(&self) -> Option<&(dyn Error + 'static)> {
        Some(&self.refusal)
    }
}
