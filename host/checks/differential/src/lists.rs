//! Ready-made lists for the benchmark and for counting: lifted ones, and
//! nodes of all kinds or of one kind alone.
//!
//! A work's lists depend on its name and on nothing else, so that two
//! libraries and the peer are handed the same calls.

use plain::sorts::{Format, Sort, WIDEST, sort};
use plain::state::ROW;
use plain::values::words;

use crate::formulas::{KINDS, List, random};
use crate::patterns::{Patterns, ones};
use crate::rng::Rng;

/// The nodes that a list can have, and those of a list of one kind.
const MOST: usize = 65_535;
const ALIKE: usize = 60_000;

/// Nodes of a list of all kinds.
const SIZES: [usize; 4] = [100, 1_000, 10_000, MOST];

/// The kinds by their numbers, from 1 on.
const NAMES: [&str; KINDS] = [
    "input",
    "temporary",
    "slot",
    "fsw",
    "flag",
    "constant",
    "And",
    "Xor",
    "Eq",
    "BoolAnd",
    "BoolOr",
    "BoolNot",
    "Ite",
    "Extract",
    "Concat",
    "FAdd",
    "FSub",
    "FMul",
    "FDiv",
    "FEq",
    "FLt",
    "FIsNaN",
    "FSqrt",
    "FRoundToIntegral",
    "BvToFp",
    "FpToIeeeBv",
    "FpToSbv",
    "SbvToFp",
    "FpToFp",
];

/// Lists of one name.
#[derive(Debug, Clone)]
pub struct Work {
    pub name: String,
    made: Made,
}

/// What the lists of a work are made of.
#[derive(Debug, Clone)]
enum Made {
    /// What is lifted of these works in turn.
    Lifted(&'static [&'static str]),
    /// Nodes of all kinds, so many in each list.
    AllKinds(usize),
    /// Nodes of one kind, behind operands of these sorts.
    OneKind(u64, Vec<Sort>, Values),
}

/// Makes the values of operands.
type Values = fn(&mut Patterns, &mut Rng, Sort) -> u128;

/// A list, and given values that fit it.
#[derive(Debug, Clone)]
pub struct Ready {
    pub list: List,
    pub given: Vec<u64>,
}

impl Ready {
    fn new(rng: &mut Rng, list: List) -> Self {
        let given = list.given(rng);
        Self { list, given }
    }

    /// All its words: how many nodes it has, their rows, what is given.
    pub fn words(&self) -> impl Iterator<Item = u64> {
        let count = self.list.len() as u64;
        let rest = self.list.nodes.iter().chain(&self.given);
        [count].into_iter().chain(rest.copied())
    }
}

/// All works. What is lifted is there only where the r2SMT sources are.
#[must_use]
pub fn works() -> Vec<Work> {
    let mut works = Vec::new();
    let mut add = |name: &str, made| {
        let name = name.to_owned();
        works.push(Work { name, made });
    };
    if cfg!(not(no_oracle)) {
        let compares = &["CompareStatus", "CompareFlags"];
        add("lifted", Made::Lifted(&["mixed, long"]));
        add("compares", Made::Lifted(compares));
    }
    for size in SIZES {
        add(&format!("all-kinds-{size}"), Made::AllKinds(size));
    }
    for (kind, name) in (1..).zip(NAMES) {
        let any = |sorts| Made::OneKind(kind, sorts, Patterns::of_sort);
        add(name, any(operands(kind)));
        if let 20..=22 = kind {
            for format in Format::ALL {
                let name = format!("{name}-{}", format.number());
                add(&name, any(vec![Sort::Float(format)]));
            }
            let extended = vec![Sort::Float(Format::EXTENDED)];
            let made = Made::OneKind(kind, extended, ordinary);
            add(&format!("{name}-ordinary"), made);
        }
    }
    works
}

/// The work of that name.
#[must_use]
pub fn work(name: &str) -> Option<Work> {
    works().into_iter().find(|work| work.name == name)
}

impl Work {
    /// Whether its nodes are of all kinds.
    #[must_use]
    pub fn is_of_all_kinds(&self) -> bool {
        matches!(self.made, Made::AllKinds(_))
    }

    /// Its lists, which have at most 65,535 nodes in all.
    #[must_use]
    pub fn lists(&self) -> Vec<Ready> {
        let mut rng = Rng::new(87);
        match &self.made {
            Made::Lifted(works) => vec![Ready::new(&mut rng, lifted(works))],
            &Made::AllKinds(size) => {
                let list = |_| {
                    let list = random(&mut rng, size).first(size);
                    Ready::new(&mut rng, list)
                };
                (0..MOST / size).map(list).collect()
            }
            Made::OneKind(kind, sorts, values) => {
                let list = one_kind(&mut rng, *kind, sorts, *values);
                vec![Ready::new(&mut rng, list)]
            }
        }
    }
}

/// One list of sequences of these works in turn, each from an empty stack,
/// up to the last whole instruction for which there is room.
#[cfg(not(no_oracle))]
fn lifted(works: &[&str]) -> List {
    use crate::{steps, work};
    use plain::state::{DEPTH, NODES, STATE};
    /// Sequences of each work, which are more than a list has room for.
    const SEQUENCES: usize = 300;

    let number = |name: &&str| work::WORKS.iter().position(|known| known == name);
    let numbers = works.iter().map(|name| number(name).expect("a work"));
    let sequences = numbers.map(|number| work::sequences(number, SEQUENCES));
    let sequences: Vec<_> = sequences.collect();
    let (mut state, mut nodes) = ([0; STATE], Vec::new());
    for sequence in (0..SEQUENCES).flat_map(|at| sequences.iter().map(move |s| &s[at])) {
        state[..=DEPTH].fill(0);
        for insn in sequence {
            let next = steps::step(&state, insn);
            if next.state[NODES] > MOST as u64 {
                let sorts = plain::sorts::sorts(&nodes, nodes.len() / ROW);
                let sorts = sorts.expect("a lifted list has sorts");
                return List { nodes, sorts };
            }
            nodes.extend(steps::words(&next.nodes));
            state = next.state;
        }
    }
    panic!("too few sequences for a list: {} nodes", nodes.len() / ROW)
}

#[cfg(no_oracle)]
fn lifted(_: &[&str]) -> List {
    panic!("{}", crate::NO_ORACLE)
}

/// The sorts of the operands that a kind can take.
fn operands(kind: u64) -> Vec<Sort> {
    let widths: &[u64] = match kind {
        1..=6 => &[],
        7..=9 | 13 | 14 => &[1, 16, 32, 63, 64, 65, 79, 80],
        10..=12 => &[1],
        15 => &[1, 3, 15, 16, 63, 64],
        25 => &[32, 64, 79],
        28 => &[16, 32, 64],
        _ => return Format::ALL.map(Sort::Float).to_vec(),
    };
    widths.iter().copied().map(Sort::Bits).collect()
}

/// A number of both signs that is neither huge nor tiny.
fn ordinary(_: &mut Patterns, rng: &mut Rng, sort: Sort) -> u128 {
    let Sort::Float(format) = sort else {
        panic!("{sort:?} has no numbers")
    };
    /// How far an exponent is from that of 1.
    const FAR: usize = 20;
    let one = ones(u64::from(format.exponent) - 1);
    let exponent = one + rng.between(0, 2 * FAR) as u128 - FAR as u128;
    let sign = u128::from(rng.one_in(2));
    let fraction = format.significand - 1;
    (sign << format.exponent | exponent) << fraction
        | u128::from(rng.word()) & ones(fraction.into())
}

/// A list of nodes of one kind, behind operands of these sorts.
fn one_kind(rng: &mut Rng, kind: u64, sorts: &[Sort], values: Values) -> List {
    /// Operands of each sort.
    const OPERANDS: usize = 100;
    let mut maker = Maker {
        rng,
        list: List::default(),
        pools: vec![Vec::new(); sorts.len()],
        patterns: Patterns::default(),
    };
    for (at, &sort) in sorts.iter().enumerate() {
        for _ in 0..OPERANDS {
            let value = values(&mut maker.patterns, maker.rng, sort);
            let operand = maker.operand(sort, value);
            maker.pools[at].push(operand);
        }
    }
    while maker.list.len() < ALIKE {
        let row = maker.row(kind);
        maker.add(row);
    }
    maker.list
}

/// A list of one kind under way.
struct Maker<'a> {
    rng: &'a mut Rng,
    list: List,
    /// The operands, those of one sort in one pool.
    pools: Vec<Vec<u64>>,
    patterns: Patterns,
}

impl Maker<'_> {
    fn add(&mut self, row: [u64; ROW]) -> u64 {
        let sort = sort(&row, &self.list.sorts).expect("its operands are of its sorts");
        self.list.nodes.extend(row);
        self.list.sorts.push(sort);
        self.list.len() as u64 - 1
    }

    fn operand(&mut self, sort: Sort, value: u128) -> u64 {
        let [low, high] = words(value);
        let bits = self.add([6, low, high, sort.width()]);
        match sort {
            Sort::Bits(_) => bits,
            Sort::Float(format) => self.add([25, bits, 0, format.number()]),
        }
    }

    /// Two operands of one sort, and their width.
    fn two(&mut self) -> (u64, u64, u64) {
        let pool = self.rng.pick(&self.pools);
        let (a, b) = (*self.rng.pick(pool), *self.rng.pick(pool));
        (a, b, self.width(a))
    }

    fn width(&self, node: u64) -> u64 {
        let node = usize::try_from(node).expect("a node");
        self.list.sorts[node].width()
    }

    fn of(&mut self, from: &[u64]) -> u64 {
        *self.rng.pick(from)
    }

    /// A row of a kind, over operands of the pools.
    fn row(&mut self, kind: u64) -> [u64; ROW] {
        if kind <= 6 {
            return self.leaf(kind);
        }
        let ((a, b, width), rounding) = (self.two(), self.of(&[0, 1]));
        match kind {
            12 | 22 | 26 => [kind, a, 0, 0],
            13 => [13, *self.rng.pick(&self.pools[0]), a, b],
            14 => {
                let high = self.rng.word() % width;
                [14, a, high, self.rng.word() % (high + 1)]
            }
            15 => self.concat(),
            16..=19 => [kind, a, b, rounding],
            23 | 24 => [kind, a, rounding, 0],
            25 => {
                let format = Format::ALL.into_iter().find(|f| f.width() == width);
                [25, a, 0, format.expect("as wide as a pattern").number()]
            }
            27 => [27, a, rounding, self.of(&[16, 32, 64])],
            28 => [28, a, rounding, Format::EXTENDED.number()],
            29 => [29, a, rounding, self.of(&Format::ALL.map(Format::number))],
            _ => [kind, a, b, 0],
        }
    }

    /// A row of kinds 1 to 6.
    fn leaf(&mut self, kind: u64) -> [u64; ROW] {
        let number = self.rng.below(3) as u64;
        match kind {
            1 => [1, number, self.of(&[79, 16]), 0],
            2 | 3 => [kind, number, self.of(&[16, 32, 64, 80]), 0],
            4 => [4, 0, 0, 0],
            5 => [5, number, 0, 0],
            _ => {
                let width = self.of(&[1, 2, 3, 16, 63, 79]);
                let value = self.patterns.of_sort(self.rng, Sort::Bits(width));
                let [low, high] = words(value);
                [6, low, high, width]
            }
        }
    }

    /// Two operands that have no more than the widest bits together.
    fn concat(&mut self) -> [u64; ROW] {
        loop {
            let ((a, _, high), (b, _, low)) = (self.two(), self.two());
            if high + low <= WIDEST {
                return [15, a, b, 0];
            }
        }
    }
}

#[cfg(test)]
mod tests {
    use super::{ALIKE, MOST, NAMES, SIZES, works};
    use plain::values::evaluable;

    #[test]
    fn each_work_has_long_lists_that_can_be_evaluated() {
        for work in works() {
            let lists = work.lists();
            let nodes: usize = lists.iter().map(|ready| ready.list.len()).sum();
            assert!((ALIKE..=MOST).contains(&nodes), "{}: {nodes}", work.name);
            for ready in lists {
                let (list, given) = (ready.list, ready.given);
                let sorts = evaluable(&list.nodes, list.len(), &given, given.len());
                assert_eq!(sorts, Ok(list.sorts), "{}", work.name);
            }
        }
    }

    #[test]
    fn a_list_of_one_kind_is_mostly_of_that_kind() {
        let works = works();
        for (kind, name) in (1..).zip(NAMES) {
            let mut of_kind = works.iter();
            while let Some(work) = of_kind.find(|work| work.name.split('-').next() == Some(name)) {
                let list = &work.lists()[0].list;
                let count = list.kinds().filter(|&k| k == kind).count();
                assert!(count > ALIKE - ALIKE / 50, "{}: {count}", work.name);
            }
        }
    }

    #[test]
    fn names_differ() {
        let mut names: Vec<String> = works().into_iter().map(|work| work.name).collect();
        assert!(names.len() >= SIZES.len() + NAMES.len());
        let count = names.len();
        names.sort();
        names.dedup();
        assert_eq!(names.len(), count);
    }
}
