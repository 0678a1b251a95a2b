//! The sort check, compared with its rules said plainly.

use plain::TOO_SHORT;
use plain::sorts::{Verdict, check};
use plain::state::{ROW, room};

use crate::damage::damage;
use crate::formulas::{KINDS, lifted, random};
use crate::instructions::Grid;
use crate::report::Report;
use crate::rng::Rng;
use crate::subject::Formulas;

/// Words that a case may lend beside its list, and what they hold.
const WORDS: usize = 3;
const WORDS_BEFORE: [u64; WORDS] = [0xa5a5, 0x5a5a, 0x1111];

/// Nodes of the longest random list.
const LONGEST: usize = 60;

/// The largest room.
const MOST: usize = 65_535;

/// What one call is lent.
#[derive(Debug, Clone)]
pub struct Case {
    pub nodes: Vec<u64>,
    pub count: usize,
    /// Words lent for the verdict.
    words: usize,
}

impl Case {
    /// What is expected of the call.
    #[must_use]
    pub fn expected(&self) -> Verdict {
        check(&self.nodes, self.count)
    }

    /// The kind of a node.
    fn kind(&self, node: u64) -> u64 {
        self.nodes[usize::try_from(node).expect("in memory") * ROW]
    }
}

/// Compare `size` lists, and a few of the greatest length.
pub fn run(subject: &impl Formulas, size: u64, seed: u64) -> Report {
    let grid = Grid::default();
    let mut rng = Rng::new(seed);
    let mut run = Run::new(subject);
    for case in longest(&mut rng) {
        run.compare(&case);
    }
    while run.report.compared < size {
        let case = case(&grid, &mut rng);
        run.compare(&case);
    }
    run.finish()
}

/// A run under way.
struct Run<'a, S> {
    subject: &'a S,
    report: Report,
    /// Nodes of each kind in lists that pass, and first faults of each.
    passed: [u64; KINDS + 1],
    faults: [u64; KINDS + 1],
}

impl<'a, S: Formulas> Run<'a, S> {
    fn new(subject: &'a S) -> Self {
        Self {
            subject,
            report: Report::default(),
            passed: [0; KINDS + 1],
            faults: [0; KINDS + 1],
        }
    }

    fn compare(&mut self, case: &Case) {
        let verdict = case.expected();
        let mut expected = (verdict.number, WORDS_BEFORE);
        if case.words == 0 {
            expected.0 = TOO_SHORT;
        } else {
            expected.1[0] = verdict.node;
            self.tally(case, verdict);
        }
        self.report.count(expected.0);
        let mut words = WORDS_BEFORE;
        let number = self
            .subject
            .check(&case.nodes, case.count, &mut words[..case.words]);
        if (number, words) != expected {
            self.report.differs(|| {
                say(
                    case,
                    &format!("{expected:?}"),
                    &format!("{number} {words:?}"),
                )
            });
        }
    }

    fn tally(&mut self, case: &Case, verdict: Verdict) {
        match verdict.number {
            plain::MODELLED => {
                self.report
                    .note("nodes of lists that pass", case.count as u64);
                for row in case.nodes.chunks_exact(ROW).take(case.count) {
                    self.passed[usize::try_from(row[0]).expect("a kind")] += 1;
                }
            }
            plain::NO_SORT => match usize::try_from(case.kind(verdict.node)) {
                Ok(kind @ 1..=KINDS) => self.faults[kind] += 1,
                _ => self.faults[0] += 1,
            },
            _ => {}
        }
    }

    /// The report, with how often the rarest kind came.
    fn finish(mut self) -> Report {
        let least = |counts: &[u64]| counts.iter().copied().min().unwrap_or(0);
        let passed = least(&self.passed[1..]);
        self.report
            .note("nodes of the rarest kind that pass", passed);
        let faults = least(&self.faults[1..]);
        self.report.note("first faults of the rarest kind", faults);
        self.report.note("first faults of no kind", self.faults[0]);
        self.report
    }
}

/// A list that is well sorted, or was until it was damaged, with a count
/// that is mostly its length.
pub fn case(grid: &Grid, rng: &mut Rng) -> Case {
    let list = if rng.one_in(8) {
        lifted(grid, rng)
    } else {
        let length = rng.below(LONGEST + 1);
        random(rng, length)
    };
    let (mut nodes, mut count) = (list.nodes, list.sorts.len());
    if rng.one_in(2) {
        damage(&mut nodes, rng);
    }
    if rng.one_in(4) {
        nodes.extend((0..rng.below(2 * ROW)).map(|at| at as u64));
    }
    match rng.below(32) {
        0 => drop(nodes.pop()),
        1 => count = room(nodes.len()) as usize,
        2 => count = room(nodes.len()) as usize + 1,
        3 => count = rng.below(count + 1),
        4 => count = *rng.pick(&[MOST, MOST + 1, 1 << 32, usize::MAX]),
        _ => {}
    }
    let words = if rng.one_in(32) {
        rng.below(WORDS)
    } else {
        WORDS
    };
    Case {
        nodes,
        count,
        words,
    }
}

/// Lists as long as a list can be and longer, whole and with a fault at
/// the end.
fn longest(rng: &mut Rng) -> Vec<Case> {
    let long = random(rng, MOST + 2).nodes;
    let mut cases = Vec::new();
    for count in [MOST - 1, MOST, MOST + 1] {
        for words in [MOST * ROW - 1, MOST * ROW, MOST * ROW + 1, long.len()] {
            let mut nodes = long[..words].to_vec();
            let mut case = |nodes: &[u64]| {
                cases.push(Case {
                    nodes: nodes.to_vec(),
                    count,
                    words: WORDS,
                });
            };
            case(&nodes);
            nodes[(MOST - 1) * ROW] = 30;
            case(&nodes);
        }
    }
    cases
}

fn say(case: &Case, expected: &str, got: &str) -> String {
    let rows = case.nodes.chunks(ROW).enumerate();
    let rows = rows.map(|(number, row)| format!("  {number}: {row:?}\n"));
    format!(
        "check of {} nodes in {} words, {} words lent\n{}expected {expected}\ngot      {got}",
        case.count,
        case.nodes.len(),
        case.words,
        rows.collect::<String>()
    )
}
