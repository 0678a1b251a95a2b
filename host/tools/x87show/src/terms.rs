//! Formulas as shared terms.

use std::collections::HashMap;

/// A term's place among the terms.
pub type Id = usize;

/// A formula.
#[derive(Debug, Clone, PartialEq, Eq, Hash)]
pub enum Term {
    /// A variable or a constant, as it is written.
    Leaf(String),
    Call(String, Vec<Id>),
    /// An operator between two terms.
    Infix(Operator, Id, Id),
    /// An operator before a term.
    Before(char, Id),
    /// One of two terms, as the first one decides.
    Choice(Id, Id, Id),
    /// Bits of a term, from the highest to the lowest.
    Slice(Id, u64, u64),
}

#[derive(Debug, Clone, Copy, PartialEq, Eq, Hash)]
pub enum Operator {
    Add,
    Sub,
    Mul,
    Div,
    Equal,
    Less,
    And,
    Or,
}

impl Operator {
    pub fn sign(self) -> &'static str {
        match self {
            Self::Add => "+",
            Self::Sub => "-",
            Self::Mul => "*",
            Self::Div => "/",
            Self::Equal => "==",
            Self::Less => "<",
            Self::And => "&&",
            Self::Or => "||",
        }
    }

    /// How tightly it binds.
    pub fn strength(self) -> u8 {
        match self {
            Self::Or => 1,
            Self::And => 2,
            Self::Equal | Self::Less => 3,
            Self::Add | Self::Sub => 4,
            Self::Mul | Self::Div => 5,
        }
    }
}

impl Term {
    /// The terms that this one is made of.
    pub fn parts(&self) -> Vec<Id> {
        match self {
            Self::Leaf(_) => Vec::new(),
            Self::Call(_, parts) => parts.clone(),
            Self::Infix(_, a, b) => vec![*a, *b],
            Self::Before(_, a) | Self::Slice(a, ..) => vec![*a],
            Self::Choice(a, b, c) => vec![*a, *b, *c],
        }
    }
}

/// All terms; equal ones are one, and parts come before the whole.
#[derive(Debug, Default)]
pub struct Terms {
    all: Vec<Term>,
    places: HashMap<Term, Id>,
}

impl Terms {
    /// The place of a term.
    pub fn put(&mut self, term: Term) -> Id {
        if let Some(&id) = self.places.get(&term) {
            return id;
        }
        let id = self.all.len();
        self.all.push(term.clone());
        self.places.insert(term, id);
        id
    }

    pub fn leaf(&mut self, text: impl Into<String>) -> Id {
        self.put(Term::Leaf(text.into()))
    }

    pub fn call(&mut self, name: impl Into<String>, parts: &[Id]) -> Id {
        self.put(Term::Call(name.into(), parts.to_vec()))
    }

    pub fn get(&self, id: Id) -> &Term {
        &self.all[id]
    }

    pub fn len(&self) -> usize {
        self.all.len()
    }
}
