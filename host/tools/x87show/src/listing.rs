//! The text of a listing, read back.

use std::fmt;

use sleetgate::{Node, Refusal, Sort, Statement};

/// The rooms of `x87lift`.
pub const NODES: usize = 1_024;
pub const STATEMENTS: usize = 256;

/// What a listing says.
#[derive(Debug, Clone, Default, PartialEq, Eq)]
pub struct Listing {
    pub nodes: Vec<Node>,
    pub statements: Vec<Statement>,
    /// The node of each known place, the top first.
    pub stack: Vec<u64>,
    /// Why the run stopped, and the place.
    pub refused: Option<(Refusal, u64)>,
}

/// What is wrong with a listing, or with the step that it came from.
#[derive(Debug, Clone, PartialEq, Eq)]
pub enum Wrong {
    /// A line that no listing has, from 1 on.
    Line { line: usize, why: &'static str },
    /// A step before this one went wrong, or its notes are of another run.
    Step(String),
}

impl fmt::Display for Wrong {
    fn fmt(&self, f: &mut fmt::Formatter<'_>) -> fmt::Result {
        match self {
            Self::Line { line, why } => write!(f, "line {line} of the listing: {why}"),
            Self::Step(why) => write!(f, "{why}"),
        }
    }
}

impl std::error::Error for Wrong {}

impl Listing {
    /// The listing of a text: rows `n`, rows `s`, one row `d`, and often
    /// a row `r`.
    ///
    /// # Errors
    /// The first line that no listing has.
    pub fn read(text: &str) -> Result<Self, Wrong> {
        if text.is_empty() {
            let why = "x87lift wrote nothing: the step before this one failed";
            return Err(Wrong::Step(why.to_owned()));
        }
        let mut listing = Reading::default();
        let mut ended = false;
        for (at, line) in text.lines().enumerate() {
            let wrong = |why| Wrong::Line { line: at + 1, why };
            let (mark, rest) = line.split_once(' ').unwrap_or((line, ""));
            let words: Result<Vec<u64>, _> = rest.split(' ').map(str::parse).collect();
            let words = words.map_err(|_| wrong("fields are decimal numbers"))?;
            match (mark, ended) {
                ("n", false) => listing.node(&words).map_err(wrong)?,
                ("s", false) => listing.statement(&words).map_err(wrong)?,
                ("d", false) => {
                    listing.state(&words).map_err(wrong)?;
                    ended = true;
                }
                ("r", true) if listing.read.refused.is_none() => {
                    listing.refusal(&words).map_err(wrong)?;
                }
                _ => return Err(wrong("rows are n, then s, then one d, then at most one r")),
            }
        }
        if !ended {
            let line = text.lines().count() + 1;
            let why = "the row d with the state is missing";
            return Err(Wrong::Line { line, why });
        }
        Ok(listing.read)
    }
}

/// A listing that is being read, and the sorts of its nodes.
#[derive(Default)]
struct Reading {
    read: Listing,
    sorts: Vec<Sort>,
}

impl Reading {
    fn node(&mut self, words: &[u64]) -> Result<(), &'static str> {
        let &[number, kind, a, b, c] = words else {
            return Err("a node has a number, a kind and three fields");
        };
        if number != self.sorts.len() as u64 || !self.read.statements.is_empty() {
            return Err("nodes are numbered from 0 on, before the statements");
        }
        if self.sorts.len() == NODES {
            return Err("x87lift writes at most 1,024 nodes");
        }
        let node = Node::of([kind, a, b, c]).ok_or("there is no such node")?;
        let sort = node.sort(&self.sorts).ok_or("the node has no sort")?;
        self.sorts.push(sort);
        self.read.nodes.push(node);
        Ok(())
    }

    fn statement(&mut self, words: &[u64]) -> Result<(), &'static str> {
        let &[number, kind, a, b, c] = words else {
            return Err("a statement has a number, a kind and three fields");
        };
        if number != self.read.statements.len() as u64 {
            return Err("statements are numbered from 0 on");
        }
        if self.read.statements.len() == STATEMENTS {
            return Err("x87lift writes at most 256 statements");
        }
        let statement = Statement::of([kind, a, b, c]).ok_or("there is no such statement")?;
        if let Some(node) = named(statement)
            && !self.has(node, bits(statement))
        {
            return Err("a statement names a node of its width");
        }
        self.read.statements.push(statement);
        Ok(())
    }

    fn state(&mut self, words: &[u64]) -> Result<(), &'static str> {
        let [depth, _inputs, _temporaries, slots @ ..] = words else {
            return Err("a state has a depth, inputs and temporaries");
        };
        if slots.len() as u64 != *depth || !slots.iter().all(|&slot| self.has(slot, 79)) {
            return Err("a state has a node of 79 bits for each place");
        }
        self.read.stack = slots.to_vec();
        Ok(())
    }

    fn refusal(&mut self, words: &[u64]) -> Result<(), &'static str> {
        let &[number, place] = words else {
            return Err("a refusal has a number and a place");
        };
        let number = u32::try_from(number).unwrap_or(u32::MAX);
        let refusal = Refusal::of(number, 0).ok_or("there is no such refusal")?;
        self.read.refused = Some((refusal, place));
        Ok(())
    }

    /// Whether the list has a node of so many bits.
    fn has(&self, node: u64, bits: u64) -> bool {
        let sort = usize::try_from(node)
            .ok()
            .and_then(|node| self.sorts.get(node));
        sort.is_some_and(|sort| matches!(sort, Sort::Bits(own) if u64::from(*own) == bits))
    }
}

/// The bits that a statement demands of its node.
fn bits(statement: Statement) -> u64 {
    match statement {
        Statement::Load { bits, .. } | Statement::Store { bits, .. } => bits,
        Statement::Status { .. } | Statement::Ax { .. } => 16,
        Statement::Flag { .. } => 1,
        Statement::Unsupported { .. } => 0,
    }
}

/// The node that a statement names.
pub fn named(statement: Statement) -> Option<u64> {
    match statement {
        Statement::Load { node, .. }
        | Statement::Store { node, .. }
        | Statement::Status { node }
        | Statement::Flag { node, .. }
        | Statement::Ax { node } => Some(node),
        Statement::Unsupported { .. } => None,
    }
}
