//! What can follow in a text of the subset, where its first lines are read:
//! so that what is begun can be ended.
//!
//! A declared `FpToIeeeBv` says which node it is of, and by its width that
//! this is a float of a format. Until that node is defined, this is owed. A
//! node can be such a float if something below it suits the format: bits of
//! the pattern's width for `BvToFp`, any float for `FpToFp`, and for the
//! stack's own format an integer for `SbvToFp`.

use std::collections::BTreeMap;
use std::ops::RangeInclusive;

use super::text::{is_declared, name};
use super::universe::Universe;
use crate::sorts::{Format, Sort, WIDEST};
use crate::state::ROW;

/// A node whose line is read.
pub struct Entry {
    pub row: [u64; ROW],
    pub sort: Sort,
    pub name: String,
}

/// What the lines so far say.
pub struct State<'a> {
    pub universe: &'a Universe,
    pub entries: BTreeMap<u64, Entry>,
    /// Nodes that are said to be a float of a format.
    owed: BTreeMap<u64, Format>,
    /// Nodes of kind 26 in their order.
    pub patterns: Vec<u64>,
    /// The first number behind the last declared node, and behind the last
    /// defined one.
    behind_declared: u64,
    behind_defined: u64,
}

/// Numbers of nodes.
pub type Numbers = Vec<RangeInclusive<u64>>;

impl<'a> State<'a> {
    pub fn new(universe: &'a Universe) -> Self {
        Self {
            universe,
            entries: BTreeMap::new(),
            owed: BTreeMap::new(),
            patterns: Vec::new(),
            behind_declared: universe.nodes.start,
            behind_defined: universe.nodes.start,
        }
    }

    /// Add a node whose line is read.
    pub fn add(&mut self, node: u64, row: [u64; ROW], sort: Sort) {
        if is_declared(row[0]) {
            self.behind_declared = node + 1;
        } else {
            self.behind_defined = node + 1;
        }
        if row[0] == 26 {
            self.patterns.push(node);
            let format = Format::ALL.into_iter().find(|f| f.width() == sort.width());
            self.owed.insert(row[1], format.expect("a pattern's width"));
        }
        let name = name(node, &row);
        self.entries.insert(node, Entry { row, sort, name });
    }

    /// The first node that is owed, and its format.
    pub fn first_owed(&self) -> Option<(u64, Format)> {
        let mut open = self.owed.iter();
        let open = open.find(|(node, _)| !self.entries.contains_key(node));
        open.map(|(&node, &format)| (node, format))
    }

    /// Numbers from `first` to before `end` that no line has.
    fn unused(&self, first: u64, end: u64) -> Numbers {
        let mut numbers = Vec::new();
        let mut from = first;
        let used = self.entries.range(first..end.max(first));
        for to in used.map(|(&node, _)| node).chain([end]) {
            if from < to {
                numbers.push(from..=to - 1);
            }
            from = to + 1;
        }
        numbers
    }

    /// Whether some node below this one suits a format.
    fn is_suited(&self, format: Format, node: u64) -> bool {
        let mut below = self.entries.range(..node);
        below.any(|(_, entry)| self.suits(format, entry.sort))
    }

    /// Whether a float of this format can be made of one node of that sort.
    pub fn suits(&self, format: Format, sort: Sort) -> bool {
        let has = |kind| self.universe.has(kind);
        match sort {
            Sort::Float(_) => has(29),
            Sort::Bits(width) => {
                let integer = format == Format::EXTENDED && [16, 32, 64].contains(&width);
                width == format.width() && has(25) || integer && has(28)
            }
        }
    }

    /// Numbers of nodes that can be declared next.
    pub fn declarable(&self) -> Numbers {
        self.unused(self.behind_declared, self.universe.nodes.end)
    }

    /// Kinds that a declared node can have.
    pub fn declared_kinds(&self, node: u64) -> Vec<u64> {
        let has = |kind: &u64| self.universe.has(*kind);
        let mut kinds: Vec<u64> = (1..=5).filter(has).collect();
        if has(&26) && !self.floats_of(node).is_empty() {
            kinds.push(26);
        }
        kinds
    }

    /// Nodes that a declared node of kind 26 can be of.
    pub fn floats_of(&self, node: u64) -> Numbers {
        let mut numbers = self.unused(self.universe.nodes.start, node);
        // Behind an unused number everything can be defined.
        if let Some(first) = numbers.first().map(|range| *range.start())
            && self.formats_of(first).is_empty()
        {
            let rest = first + 1..=*numbers[0].end();
            if rest.is_empty() {
                numbers.remove(0);
            } else {
                numbers[0] = rest;
            }
        }
        numbers
    }

    /// Formats that a node can have of which a node of kind 26 is declared.
    pub fn formats_of(&self, node: u64) -> Vec<Format> {
        if let Some(&format) = self.owed.get(&node) {
            return vec![format];
        }
        let free = !self.unused(self.universe.nodes.start, node).is_empty();
        let possible = |format: &Format| free || self.is_suited(*format, node);
        let formats = self.universe.formats.iter().copied();
        formats.filter(possible).collect()
    }

    /// Numbers of nodes that can be defined next.
    pub fn definable(&self) -> Numbers {
        let Some((owed, format)) = self.first_owed() else {
            return self.unused(self.behind_defined, self.universe.nodes.end);
        };
        let mut numbers = self.unused(self.behind_defined, owed);
        if self.is_suited(format, owed) {
            numbers.push(owed..=owed);
        }
        numbers
    }

    /// Sorts that a defined node can have. What comes last before a node that
    /// is owed, and that nothing suits, must suit it.
    pub fn sorts(&self, node: u64) -> Vec<Sort> {
        if let Some(&format) = self.owed.get(&node) {
            return vec![Sort::Float(format)];
        }
        let bits = self.universe.widths.iter().map(|&width| Sort::Bits(width));
        let formats = self.universe.formats.iter().copied();
        let formats = formats.filter(|&format| self.is_suited(format, node));
        let made = bits.chain(formats.map(Sort::Float));
        match self.first_owed() {
            Some((owed, format))
                if self.unused(node + 1, owed).is_empty() && !self.is_suited(format, owed) =>
            {
                made.filter(|&sort| self.suits(format, sort)).collect()
            }
            _ => made.collect(),
        }
    }

    /// The sorts of the nodes below one.
    pub fn below(&self, node: u64) -> Below {
        let mut below = Below {
            bits: [false; WIDEST as usize + 1],
            formats: Vec::new(),
        };
        for (_, entry) in self.entries.range(..node) {
            match entry.sort {
                Sort::Bits(width) => below.bits[usize::try_from(width).expect("small")] = true,
                Sort::Float(format) => below.formats.push(format),
            }
        }
        below
    }

    /// The names of nodes below one whose sort will do, with a mark.
    pub fn names<'s>(
        &'s self,
        node: u64,
        mark: &'s str,
        will_do: impl Fn(Sort) -> bool + 's,
    ) -> impl Iterator<Item = (&'s str, &'s str, u64)> {
        let below = self.entries.range(..node);
        let fit = below.filter(move |(_, entry)| will_do(entry.sort));
        fit.map(move |(&node, entry)| (entry.name.as_str(), mark, node))
    }
}

/// Which sorts some nodes have.
pub struct Below {
    /// By their width.
    bits: [bool; WIDEST as usize + 1],
    formats: Vec<Format>,
}

impl Below {
    pub fn bits(&self, width: u64) -> bool {
        usize::try_from(width).is_ok_and(|width| self.bits.get(width) == Some(&true))
    }

    pub fn widths(&self) -> impl Iterator<Item = u64> {
        (1..=WIDEST).filter(|&width| self.bits(width))
    }

    pub fn float(&self, format: Format) -> bool {
        self.formats.contains(&format)
    }

    pub fn some_float(&self) -> bool {
        !self.formats.is_empty()
    }
}
