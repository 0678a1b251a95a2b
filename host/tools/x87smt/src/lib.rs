//! One formula of x87 code as SMT-LIB text, for a solver.
//!
//! The records that `x87lift` takes are lifted by the proved library, and the
//! library writes what one node needs. The text is that and nothing else: no
//! `set-logic`, no `check-sat`, no comment. What a reader of it has to know
//! stands beside it, in words:
//!
//! - what each constant stands for, and that nobody knows what was on the
//!   stack before the first record or behind a decline;
//! - which instructions were declined, and that what they do is not in it;
//! - where two constants are one variable at two times;
//! - what SMT-LIB leaves open, and how arithmetic rounds.
//!
//! Such a text is also read back, by the library too: into the nodes that it
//! says, or the place from which on it is none.

mod listing;
mod run;
mod words;

use std::fmt;

use sleetgate::{Refusal, RefusedRecord, Statement, smt_lib};

pub use listing::listing;
use run::Run;

/// What is asked for.
#[derive(Debug, Clone, Copy, PartialEq, Eq)]
pub enum Root {
    /// What stands at a place of the stack behind the last record.
    Place(u64),
    /// What a statement stores or sets.
    Statement(u64),
    /// A node.
    Node(u64),
}

/// A formula.
#[derive(Debug, Clone, PartialEq, Eq)]
pub struct Formula {
    /// The text, exactly as the library writes it.
    pub text: String,
    /// What a reader has to know, in sentences.
    pub words: Vec<String>,
}

/// Why there is no formula, or no listing.
#[derive(Debug, Clone, PartialEq, Eq)]
pub enum Wrong {
    /// The library is not there.
    Library,
    /// The input is empty: the step before this one failed.
    NoRecords,
    /// A record is refused.
    Record(RefusedRecord),
    /// The stack has only so many known places.
    Place { place: u64, known: usize },
    /// There are only so many statements.
    NoStatement { statement: u64, count: usize },
    /// A statement that neither stores nor sets anything.
    Sets { statement: u64, does: &'static str },
    /// The library refuses to write the text.
    Text { refusal: Refusal, nodes: usize },
    /// What goes by this name is no text: none can follow from this line and
    /// this byte of it on, where it may end.
    Syntax {
        name: String,
        line: usize,
        column: usize,
        shown: String,
        ends: bool,
    },
}

impl fmt::Display for Wrong {
    fn fmt(&self, f: &mut fmt::Formatter<'_>) -> fmt::Result {
        match self {
            Self::Library => write!(f, "{}", sleetgate_sys::MISSING),
            Self::NoRecords => write!(f, "there are no records: the step before this one failed"),
            Self::Record(refused) => write!(f, "the records are {refused}"),
            Self::Place { place, known } => {
                let others = match known {
                    0 => "none is".to_owned(),
                    1 => "place 0 alone is".to_owned(),
                    _ => format!("places 0 to {} are", known - 1),
                };
                let place = format!("place {place} of the stack is not known");
                write!(f, "behind the last record {place}; {others}")
            }
            Self::NoStatement { statement, count } => {
                write!(
                    f,
                    "there is no statement {statement}: {count} were lifted, from 0 on"
                )
            }
            Self::Sets { statement, does } => {
                write!(
                    f,
                    "statement {statement} stores and sets nothing: it {does}"
                )
            }
            Self::Text { refusal, nodes } => {
                write!(
                    f,
                    "the text is {refusal}; {nodes} nodes were lifted, from 0 on"
                )
            }
            Self::Syntax {
                name,
                line,
                column,
                shown,
                ends,
            } => {
                let why = if *ends {
                    "the text stops early"
                } else {
                    "no text can follow from here"
                };
                writeln!(f, "{name}:{line}:{column}: {why}")?;
                write!(f, "{shown}\n{:>column$}", '^')
            }
        }
    }
}

impl std::error::Error for Wrong {}

/// The formula of what is asked for.
///
/// # Errors
/// Why there is none.
pub fn formula(records: &[u8], root: Root) -> Result<Formula, Wrong> {
    if !sleetgate_sys::at_hand() {
        return Err(Wrong::Library);
    }
    let run = Run::of(records)?;
    let root = node(&run, root)?;
    let text = smt_lib::write(run.nodes(), root).map_err(|refusal| Wrong::Text {
        refusal,
        nodes: run.nodes().len(),
    })?;
    let words = words::words(&run, root);
    Ok(Formula { text, words })
}

/// The node that is asked for.
fn node(run: &Run, root: Root) -> Result<u64, Wrong> {
    match root {
        Root::Node(node) => Ok(node),
        Root::Place(place) => {
            let stack = run.stack();
            let at = usize::try_from(place).ok().and_then(|at| stack.get(at));
            at.copied().ok_or(Wrong::Place {
                place,
                known: stack.len(),
            })
        }
        Root::Statement(statement) => {
            let found = run.statements().get(statement).ok_or(Wrong::NoStatement {
                statement,
                count: run.statements().len(),
            })?;
            set(found).map_err(|does| Wrong::Sets { statement, does })
        }
    }
}

/// The node that a statement stores or sets something to, or what it does
/// instead.
fn set(statement: Statement) -> Result<u64, &'static str> {
    match statement {
        Statement::Store { node, .. }
        | Statement::Status { node }
        | Statement::Flag { node, .. }
        | Statement::Ax { node } => Ok(node),
        Statement::Load { .. } => Err("loads"),
        Statement::Unsupported { .. } => Err("is a decline"),
    }
}
