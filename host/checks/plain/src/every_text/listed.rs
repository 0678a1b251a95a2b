//! Every text of a small universe, by the definition of the subset: all
//! lists of it that pass the check, with all marks that are kept.

use crate::smt::{Universe, arity, is_declared, text};
use crate::sorts::{Sort, WIDEST, sort};

/// A row that stands where a node is not marked.
const UNMARKED: [u64; 4] = [4, 0, 0, 0];

/// Every text of a universe, in order.
pub struct Texts(pub Vec<String>);

impl Texts {
    #[must_use]
    pub fn of(universe: &Universe) -> Self {
        let mut lister = Lister {
            universe,
            rows: Vec::new(),
            sorts: Vec::new(),
            marks: Vec::new(),
            texts: Vec::new(),
        };
        for _ in 0..universe.nodes.start {
            lister.push(UNMARKED, false);
        }
        lister.grow();
        lister.texts.sort_unstable();
        Self(lister.texts)
    }

    /// So many of the texts, half of them with a node of kind 26 where there
    /// are such.
    #[must_use]
    pub fn sample(&self, size: usize) -> Vec<&str> {
        let all = self.0.iter().map(String::as_str);
        let owing = all.clone().filter(|text| text.contains("_26_"));
        let mut sample = spread(all.collect(), size / 2);
        sample.extend(spread(owing.collect(), size / 2));
        sample
    }

    /// Nothing where the bytes are a text; else how many of them begin one.
    #[must_use]
    pub fn place(&self, bytes: &[u8]) -> Option<usize> {
        let at = self.0.partition_point(|text| text.as_bytes() < bytes);
        let neighbours = &self.0[at.saturating_sub(1)..(at + 1).min(self.0.len())];
        if neighbours.iter().any(|text| text.as_bytes() == bytes) {
            return None;
        }
        let shared = neighbours.iter().map(|text| shared(text.as_bytes(), bytes));
        shared.max()
    }
}

/// So many of some texts, at equal distances.
fn spread(texts: Vec<&str>, size: usize) -> Vec<&str> {
    let step = texts.len().div_ceil(size).max(1);
    texts.into_iter().skip(step / 2).step_by(step).collect()
}

/// How many first bytes two have in common.
fn shared(one: &[u8], other: &[u8]) -> usize {
    let pairs = one.iter().zip(other);
    pairs.take_while(|(a, b)| a == b).count()
}

/// A list under way, and the texts so far.
struct Lister<'a> {
    universe: &'a Universe,
    rows: Vec<[u64; 4]>,
    sorts: Vec<Sort>,
    marks: Vec<bool>,
    texts: Vec<String>,
}

impl Lister<'_> {
    /// Add a row, if the node has a sort of the universe.
    fn push(&mut self, row: [u64; 4], mark: bool) -> bool {
        let Some(sort) = sort(&row, &self.sorts) else {
            return false;
        };
        let listed = match sort {
            Sort::Bits(width) => is_declared(row[0]) || self.universe.widths.contains(&width),
            Sort::Float(format) => self.universe.formats.contains(&format),
        };
        if listed || !mark {
            self.rows.push(row);
            self.sorts.push(sort);
            self.marks.push(mark);
        }
        listed || !mark
    }

    fn pop(&mut self) {
        self.rows.pop();
        self.sorts.pop();
        self.marks.pop();
    }

    /// Go on in every way.
    fn grow(&mut self) {
        if self.rows.len() as u64 == self.universe.nodes.end {
            if self.marks.contains(&true) {
                let text = text(&self.rows, &self.sorts, &self.marks);
                self.texts.push(text);
            }
            return;
        }
        self.push(UNMARKED, false);
        self.grow();
        self.pop();
        for &kind in &self.universe.kinds {
            for row in self.rows_of(kind) {
                if self.push(row, true) {
                    self.grow();
                    self.pop();
                }
            }
        }
    }

    /// Rows of a kind, with a sort or not; each operand is a marked node.
    fn rows_of(&self, kind: u64) -> Vec<[u64; 4]> {
        let marked = self.marks.iter().zip(0..).filter(|(mark, _)| **mark);
        let marked: Vec<u64> = marked.map(|(_, node)| node).collect();
        let mut rows = self.fields_of(kind);
        for field in 1..=arity(kind) {
            let each = |row: &[u64; 4]| {
                let mut row = *row;
                let named = marked.iter().map(move |&node| {
                    row[field] = node;
                    row
                });
                named.collect::<Vec<_>>()
            };
            rows = rows.iter().flat_map(each).collect();
        }
        rows
    }

    /// Rows of a kind without their operands.
    fn fields_of(&self, kind: u64) -> Vec<[u64; 4]> {
        let universe = self.universe;
        let formats: Vec<u64> = universe.formats.iter().map(|f| f.number()).collect();
        let numbers: Vec<u64> = universe.numbers.clone().collect();
        let (roundings, none) = (&universe.roundings, &vec![0]);
        let pairs = |bs: &Vec<u64>, cs: &Vec<u64>| {
            let rows = bs
                .iter()
                .flat_map(|&b| cs.iter().map(move |&c| [kind, 0, b, c]));
            rows.collect::<Vec<_>>()
        };
        match kind {
            1 => numbered(kind, &numbers, &universe.inputs),
            2 | 3 => numbered(kind, &numbers, &universe.variables),
            5 => numbered(kind, &universe.flags, none),
            6 => universe
                .widths
                .iter()
                .flat_map(|&w| self.constants(w))
                .collect(),
            14 => universe.widths.iter().flat_map(|&w| extracts(w)).collect(),
            16..=19 => pairs(none, roundings),
            23 | 24 => pairs(roundings, none),
            25 => pairs(none, &formats),
            27 => pairs(roundings, &universe.integers),
            28 | 29 => pairs(roundings, &formats),
            _ => vec![[kind, 0, 0, 0]],
        }
    }

    /// The constants of a width.
    fn constants(&self, width: u64) -> Vec<[u64; 4]> {
        let mut values = vec![0];
        for _ in 0..width {
            let digits = |value: u64| {
                self.universe
                    .digits
                    .iter()
                    .map(move |d| value << 1 | u64::from(d & 1))
            };
            values = values.into_iter().flat_map(digits).collect();
        }
        values
            .into_iter()
            .map(|value| [6, value, 0, width])
            .collect()
    }
}

fn numbered(kind: u64, numbers: &[u64], widths: &[u64]) -> Vec<[u64; 4]> {
    let rows = numbers
        .iter()
        .flat_map(|&a| widths.iter().map(move |&b| [kind, a, b, 0]));
    rows.collect()
}

/// Every way to take so many bits out of others.
fn extracts(width: u64) -> Vec<[u64; 4]> {
    (width - 1..WIDEST)
        .map(|hi| [14, 0, hi, hi + 1 - width])
        .collect()
}
