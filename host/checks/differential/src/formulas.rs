//! Random lists of nodes that have sorts: any kind, with operands chosen
//! by their sort, and lists that the lifter makes.

use plain::sorts::{Format, Sort, WIDEST};
use plain::state::{DEPTH, NODES, ROW, STATE};
use plain::values::{VALUE, takes_given, words};
use sleetgate_sys::{DETAIL, untested};

use crate::instructions::Grid;
use crate::patterns::Patterns;
use crate::rng::Rng;
use crate::sequences::Profile;

/// The kinds.
pub const KINDS: usize = 29;

/// Instructions of the longest lift, and the rows lent for each.
const LONGEST: usize = 6;
const ROWS: usize = 46;

/// A list, and the sort of each node.
#[derive(Debug, Clone, Default)]
pub struct List {
    pub nodes: Vec<u64>,
    pub sorts: Vec<Sort>,
}

impl List {
    #[must_use]
    pub fn len(&self) -> usize {
        self.sorts.len()
    }

    #[must_use]
    pub fn is_empty(&self) -> bool {
        self.sorts.is_empty()
    }

    /// The kinds of its nodes.
    pub fn kinds(&self) -> impl Iterator<Item = u64> {
        self.nodes.chunks_exact(ROW).map(|row| row[0])
    }

    /// The list of its first nodes.
    #[must_use]
    pub fn first(mut self, nodes: usize) -> Self {
        self.nodes.truncate(nodes * ROW);
        self.sorts.truncate(nodes);
        self
    }

    /// A given value that fits for each node that takes one, and for the
    /// others any words.
    pub fn given(&self, rng: &mut Rng) -> Vec<u64> {
        let mut patterns = Patterns::default();
        let mut column = Vec::with_capacity(self.len() * VALUE);
        for (kind, &sort) in self.kinds().zip(&self.sorts) {
            column.extend(if takes_given(kind) {
                words(patterns.of_sort(rng, sort))
            } else {
                [rng.word(), rng.word()]
            });
        }
        column
    }
}

/// A random list of at least `length` nodes: the last of them may have
/// needed operands of its own.
pub fn random(rng: &mut Rng, length: usize) -> List {
    let mut maker = Maker {
        rng,
        list: List::default(),
        pools: vec![Vec::new(); POOLS],
        patterns: Patterns::default(),
    };
    while maker.list.len() < length {
        maker.node();
    }
    maker.list
}

/// A list that the library's lifter makes of a few instructions.
///
/// # Panics
/// Where a list that is lifted has no sorts.
pub fn lifted(grid: &Grid, rng: &mut Rng) -> List {
    let mut state = [0; STATE];
    let mut nodes = vec![0; LONGEST * ROWS * ROW];
    let mut statements = vec![0; LONGEST * ROWS * ROW];
    let profile = Profile::plain(rng.between(1, LONGEST));
    while state[NODES] == 0 {
        for _ in 0..profile.length {
            let depth = usize::try_from(state[DEPTH]).expect("at most 8");
            let flat = profile.next(grid, rng, depth).to_flat();
            let detail = &mut [0; DETAIL];
            untested::lift(&flat, &mut state, &mut nodes, &mut statements, detail);
        }
    }
    let count = usize::try_from(state[NODES]).expect("at most the room");
    nodes.truncate(count * ROW);
    let sorts = plain::sorts::sorts(&nodes, count);
    let sorts = sorts.unwrap_or_else(|v| panic!("a lifted list without sorts: {v:?}\n{nodes:?}"));
    List { nodes, sorts }
}

/// One pool of nodes for each width, and one for each format.
const POOLS: usize = 80 + 1 + 3;

fn pool(sort: Sort) -> usize {
    match sort {
        Sort::Bits(width) => usize::try_from(width).expect("at most 80"),
        Sort::Float(format) => {
            let at = Format::ALL.iter().position(|&f| f == format);
            81 + at.expect("one of the three")
        }
    }
}

/// A list under way.
struct Maker<'a> {
    rng: &'a mut Rng,
    list: List,
    /// The nodes of each sort.
    pools: Vec<Vec<u64>>,
    patterns: Patterns,
}

impl Maker<'_> {
    fn add(&mut self, row: [u64; ROW], sort: Sort) -> u64 {
        let number = self.list.len() as u64;
        self.list.nodes.extend(row);
        self.list.sorts.push(sort);
        self.pools[pool(sort)].push(number);
        number
    }

    /// Add a node of a random kind, and what operands it lacks.
    fn node(&mut self) {
        match self.rng.between(1, KINDS) as u64 {
            kind @ 1..=6 => drop(self.leaf(kind)),
            kind @ 7..=13 => self.bits_node(kind),
            14 => self.extract(),
            15 => self.concat(),
            kind @ 16..=21 => self.two_floats(kind),
            kind => self.one_float(kind),
        }
    }

    fn leaf(&mut self, kind: u64) -> u64 {
        let widths: &[u64] = match kind {
            1 => &[79, 16],
            2 | 3 => &[16, 32, 64, 80],
            4 => return self.add([4, 0, 0, 0], Sort::Bits(16)),
            5 => {
                let flag = self.rng.below(3) as u64;
                return self.add([5, flag, 0, 0], Sort::Bits(1));
            }
            _ => {
                let width = self.width();
                return self.constant(width);
            }
        };
        let width = *self.rng.pick(widths);
        self.variable(kind, width)
    }

    fn variable(&mut self, kind: u64, width: u64) -> u64 {
        let number = match self.rng.below(16) {
            0 => self.rng.word(),
            1 => u32::MAX.into(),
            _ => self.rng.below(9) as u64,
        };
        self.add([kind, number, width, 0], Sort::Bits(width))
    }

    fn constant(&mut self, width: u64) -> u64 {
        let sort = Sort::Bits(width);
        let [low, high] = words(self.patterns.of_sort(self.rng, sort));
        self.add([6, low, high, width], sort)
    }

    /// A width, often one of the usual ones.
    fn width(&mut self) -> u64 {
        if self.rng.one_in(2) {
            *self.rng.pick(&[1, 16, 32, 63, 64, 65, 79, 80])
        } else {
            self.rng.between(1, 80) as u64
        }
    }

    /// One of the nodes of a sort, if there is one.
    fn known(&mut self, sort: Sort) -> Option<u64> {
        let pool = &self.pools[pool(sort)];
        (!pool.is_empty()).then(|| *self.rng.pick(pool))
    }

    /// A node of this width: mostly one that is there.
    fn bits(&mut self, width: u64) -> u64 {
        if !self.rng.one_in(6)
            && let Some(node) = self.known(Sort::Bits(width))
        {
            return node;
        }
        match (width, self.rng.below(4)) {
            (1, 0) => self.leaf(5),
            (16, 0) => self.leaf(4),
            (16 | 79, 1) => self.variable(1, width),
            (16 | 32 | 64 | 80, kind @ 2..=3) => self.variable(kind as u64, width),
            _ => self.constant(width),
        }
    }

    /// A node of any width up to this one, with its width.
    fn any_bits(&mut self, most: u64) -> (u64, u64) {
        if !self.list.is_empty() && !self.rng.one_in(6) {
            let node = self.rng.below(self.list.len());
            if let Sort::Bits(width) = self.list.sorts[node]
                && width <= most
            {
                return (node as u64, width);
            }
        }
        let width = self.width().min(most);
        (self.bits(width), width)
    }

    fn float(&mut self, format: Format) -> u64 {
        if !self.rng.one_in(6)
            && let Some(node) = self.known(Sort::Float(format))
        {
            return node;
        }
        let source = self.bits(format.width());
        self.add([25, source, 0, format.number()], Sort::Float(format))
    }

    fn format(&mut self) -> Format {
        *self.rng.pick(&Format::ALL)
    }

    fn rounding(&mut self) -> u64 {
        self.rng.below(2) as u64
    }

    /// Kinds 7 to 13.
    fn bits_node(&mut self, kind: u64) {
        let truth = Sort::Bits(1);
        if let 10..=12 = kind {
            let a = self.bits(1);
            let b = if kind == 12 { 0 } else { self.bits(1) };
            self.add([kind, a, b, 0], truth);
            return;
        }
        let (a, width) = self.any_bits(WIDEST);
        let b = self.bits(width);
        match kind {
            9 => self.add([kind, a, b, 0], truth),
            13 => {
                let condition = self.bits(1);
                self.add([kind, condition, a, b], Sort::Bits(width))
            }
            _ => self.add([kind, a, b, 0], Sort::Bits(width)),
        };
    }

    fn extract(&mut self) {
        let (a, width) = self.any_bits(WIDEST);
        let hi = match self.rng.below(3) {
            0 => width - 1,
            _ => self.rng.word() % width,
        };
        let lo = match self.rng.below(3) {
            0 => 0,
            1 => hi,
            _ => self.rng.word() % (hi + 1),
        };
        self.add([14, a, hi, lo], Sort::Bits(hi - lo + 1));
    }

    fn concat(&mut self) {
        let (a, high) = self.any_bits(WIDEST - 1);
        let (b, low) = if self.rng.one_in(4) {
            (self.bits(WIDEST - high), WIDEST - high)
        } else {
            self.any_bits(WIDEST - high)
        };
        self.add([15, a, b, 0], Sort::Bits(high + low));
    }

    /// Kinds 16 to 21.
    fn two_floats(&mut self, kind: u64) {
        let format = self.format();
        let (a, b) = (self.float(format), self.float(format));
        if kind < 20 {
            let rounding = self.rounding();
            self.add([kind, a, b, rounding], Sort::Float(format));
        } else {
            self.add([kind, a, b, 0], Sort::Bits(1));
        }
    }

    /// Kinds 22 to 29.
    fn one_float(&mut self, kind: u64) {
        let (format, rounding) = (self.format(), self.rounding());
        let width = *self.rng.pick(&[16, 32, 64]);
        let a = match kind {
            25 => self.bits(format.width()),
            28 => self.bits(width),
            _ => self.float(format),
        };
        let other = self.format();
        match kind {
            22 => self.add([22, a, 0, 0], Sort::Bits(1)),
            25 => self.add([25, a, 0, format.number()], Sort::Float(format)),
            26 => self.add([26, a, 0, 0], Sort::Bits(format.width())),
            27 => self.add([27, a, rounding, width], Sort::Bits(width)),
            28 => self.add([28, a, rounding, 3904], Sort::Float(Format::EXTENDED)),
            29 => self.add([29, a, rounding, other.number()], Sort::Float(other)),
            _ => self.add([kind, a, rounding, 0], Sort::Float(format)),
        };
    }
}

#[cfg(test)]
mod tests {
    use super::{KINDS, random};
    use crate::rng::Rng;
    use plain::sorts::sorts;
    use plain::values::evaluable;

    #[test]
    fn random_lists_have_the_sorts_that_they_were_made_for() {
        let mut rng = Rng::new(1);
        let mut kinds = [0; KINDS + 1];
        for length in (0..60).cycle().take(600) {
            let list = random(&mut rng, length);
            assert_eq!(sorts(&list.nodes, list.len()), Ok(list.sorts.clone()));
            let given = list.given(&mut rng);
            assert!(evaluable(&list.nodes, list.len(), &given, given.len()).is_ok());
            for kind in list.kinds() {
                kinds[usize::try_from(kind).expect("at most 29")] += 1;
            }
        }
        assert!(kinds[1..].iter().all(|&count| count > 100), "{kinds:?}");
    }
}
