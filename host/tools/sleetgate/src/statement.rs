//! Statements.

use crate::rows::Rows;
use crate::{Detail, Flag, Iter, Why};

/// A statement of a lift: what an instruction does beyond the register
/// stack (manual, section 4). A list has them in the order of the
/// instructions.
#[derive(Debug, Clone, Copy, PartialEq, Eq, Hash)]
pub enum Statement {
    /// 1: a temporary or a named slot is loaded.
    Load {
        /// The node that names it.
        node: u64,
        /// The address number.
        address: u64,
        /// Bits that are read.
        bits: u64,
    },
    /// 2: a value is stored.
    Store {
        /// The address number.
        address: u64,
        /// The value.
        node: u64,
        /// Bits that are written.
        bits: u64,
    },
    /// 3: the status word becomes a value.
    Status {
        /// The value.
        node: u64,
    },
    /// 4: a flag becomes a value.
    Flag {
        /// The flag.
        flag: Flag,
        /// The value.
        node: u64,
    },
    /// 5: `ax` becomes a value.
    Ax {
        /// The value.
        node: u64,
    },
    /// 6: an instruction that was declined; the stack is forgotten here.
    Unsupported {
        /// Why it was declined.
        answer: Why,
        /// The instruction's address.
        address: u64,
    },
}

impl Statement {
    /// The statement of a row; `None` where there is no such kind, flag
    /// or answer with its detail, or an unused field is not 0.
    ///
    /// ```
    /// # use sleetgate::{Detail, Statement, Why};
    /// assert_eq!(Statement::of([3, 7, 0, 0]), Some(Statement::Status { node: 7 }));
    /// assert_eq!(Statement::of([3, 7, 0, 1]), None);
    /// let declined = Statement::Unsupported { answer: Why::Form(Detail::Width), address: 7 };
    /// assert_eq!(Statement::of([6, 1, 7, 25]), Some(declined));
    /// ```
    #[must_use]
    pub fn of(row: [u64; 4]) -> Option<Self> {
        let [kind, a, b, c] = row;
        let statement = match kind {
            1 => Self::Load {
                node: a,
                address: b,
                bits: c,
            },
            2 => Self::Store {
                address: a,
                node: b,
                bits: c,
            },
            3 => Self::Status { node: a },
            4 => Self::Flag {
                flag: Flag::of(a)?,
                node: b,
            },
            5 => Self::Ax { node: a },
            6 => Self::Unsupported {
                answer: Why::of(u32::try_from(a).ok()?, c)?,
                address: b,
            },
            _ => return None,
        };
        (statement.row() == row).then_some(statement)
    }

    /// Its row: kind, a, b, c.
    #[must_use]
    pub fn row(self) -> [u64; 4] {
        match self {
            Self::Load {
                node,
                address,
                bits,
            } => [1, node, address, bits],
            Self::Store {
                address,
                node,
                bits,
            } => [2, address, node, bits],
            Self::Status { node } => [3, node, 0, 0],
            Self::Flag { flag, node } => [4, flag.number(), node, 0],
            Self::Ax { node } => [5, node, 0, 0],
            Self::Unsupported { answer, address } => {
                let detail = answer.detail().map_or(0, Detail::number);
                [6, answer.number().into(), address, detail]
            }
        }
    }
}

/// A list of statements as it lies in memory, four words each.
#[derive(Debug, Clone, Copy, PartialEq, Eq)]
pub struct Statements<'a>(Rows<'a>);

impl<'a> Statements<'a> {
    /// The list in these words.
    ///
    /// ```
    /// # use sleetgate::Statements;
    /// assert_eq!(Statements::new(&[3, 7, 0, 0]).len(), 1);
    /// ```
    #[must_use]
    pub fn new(words: &'a [u64]) -> Self {
        Self(Rows(words))
    }

    /// How many there are.
    #[must_use]
    pub fn len(self) -> usize {
        self.0.len()
    }

    /// Whether there are none.
    #[must_use]
    pub fn is_empty(self) -> bool {
        self.len() == 0
    }

    /// The statement of that number.
    #[must_use]
    pub fn get(self, number: u64) -> Option<Statement> {
        self.0.get(number).and_then(Statement::of)
    }

    /// All of them; a row that is no statement ends them.
    #[must_use]
    pub fn iter(self) -> Iter<'a, Statement> {
        self.0.iter(Statement::of)
    }

    /// The words.
    #[must_use]
    pub fn words(self) -> &'a [u64] {
        self.0.0
    }
}

/// ```
/// # use sleetgate::{Statement, Statements};
/// let words = [3, 7, 0, 0, 5, 8, 0, 0];
/// let mut seen = Vec::new();
/// for statement in Statements::new(&words) {
///     seen.push(statement);
/// }
/// assert_eq!(seen, [Statement::Status { node: 7 }, Statement::Ax { node: 8 }]);
/// ```
impl<'a> IntoIterator for Statements<'a> {
    type Item = Statement;
    type IntoIter = Iter<'a, Statement>;

    fn into_iter(self) -> Self::IntoIter {
        self.iter()
    }
}

impl<'a> IntoIterator for &Statements<'a> {
    type Item = Statement;
    type IntoIter = Iter<'a, Statement>;

    fn into_iter(self) -> Self::IntoIter {
        self.iter()
    }
}
