//! Formulas as SMT-LIB text: what is written, compared with the rules said
//! plainly.

use plain::MODELLED;
use plain::smt::{marked, needed};
use plain::state::ROW;

use crate::damage::damage;
use crate::formulas::{KINDS, List, lifted, random};
use crate::instructions::Grid;
use crate::report::Report;
use crate::rng::Rng;
use crate::subject::{Plain, Texts};

/// Words that a case may lend to be told, and what they hold.
const WORDS: usize = 3;
const WORDS_BEFORE: [u64; WORDS] = [0xa5a5, 0x5a5a, 0x1111];

/// What a lent byte holds.
const BYTE: u8 = 0xa5;

/// Nodes of the longest random list, and bytes that the text of a node has
/// at most.
const LONGEST: usize = 60;
const MOST_BYTES: usize = 300;

/// The largest room of a list.
const MOST: usize = 65_535;

/// What one call is lent.
#[derive(Debug, Clone)]
pub struct Case {
    pub nodes: Vec<u64>,
    pub count: usize,
    pub root: usize,
    /// Bytes lent for the text.
    room: usize,
    /// Words lent to be told.
    words: usize,
}

/// A number, and what was lent after the call.
#[derive(Debug, Clone, PartialEq, Eq)]
struct Answer {
    number: u32,
    words: [u64; WORDS],
    text: Vec<u8>,
}

impl Answer {
    /// The text that was written.
    fn written(&self) -> &[u8] {
        let length = usize::try_from(self.words[0]).unwrap_or(usize::MAX);
        self.text.get(..length).unwrap_or(&self.text)
    }
}

impl Case {
    /// The call for one root of a list, with room for any text of it.
    #[must_use]
    pub fn new(list: &List, root: usize) -> Self {
        Self {
            nodes: list.nodes.clone(),
            count: list.len(),
            root,
            room: list.len() * MOST_BYTES,
            words: WORDS,
        }
    }

    fn asked(&self, subject: &dyn Texts) -> Answer {
        let (mut words, mut text) = (WORDS_BEFORE, vec![BYTE; self.room]);
        let out = &mut words[..self.words];
        let number = subject.smt_write(&self.nodes, self.count, self.root, &mut text, out);
        Answer {
            number,
            words,
            text,
        }
    }

    /// The text that is expected, or none where the call is refused.
    fn text(&self) -> Option<Vec<u8>> {
        let answer = self.asked(&Plain);
        (answer.number == MODELLED).then(|| answer.written().to_vec())
    }
}

/// Compare a few calls on lists of the greatest length, and up to `size`
/// others.
pub fn run(subject: &dyn Texts, size: u64, seed: u64) -> Report {
    let mut rng = Rng::new(seed);
    let mut run = Run::new(subject);
    for case in longest(&mut rng) {
        run.compare(&case);
    }
    run.random(size, &mut rng)
}

/// Compare `size` calls on lists of a few nodes.
pub fn run_short(subject: &dyn Texts, size: u64, seed: u64) -> Report {
    Run::new(subject).random(size, &mut Rng::new(seed))
}

/// A list that the check passes.
pub fn list(grid: &Grid, rng: &mut Rng) -> List {
    if rng.one_in(4) {
        return lifted(grid, rng);
    }
    let length = rng.between(1, LONGEST);
    random(rng, length)
}

/// A run under way.
struct Run<'a> {
    subject: &'a dyn Texts,
    report: Report,
    /// Nodes of each kind in texts.
    written: [u64; KINDS + 1],
}

impl<'a> Run<'a> {
    fn new(subject: &'a dyn Texts) -> Self {
        Self {
            subject,
            report: Report::default(),
            written: [0; KINDS + 1],
        }
    }

    /// Compare calls on random lists, until there are so many, and give the
    /// report.
    fn random(mut self, size: u64, rng: &mut Rng) -> Report {
        let grid = Grid::default();
        while self.report.compared < size {
            let list = list(&grid, rng);
            for case in cases(&list, rng) {
                self.compare(&case);
            }
        }
        let rarest = self.written[1..].iter().copied().min().unwrap_or(0);
        let name = "nodes of the rarest kind in texts";
        self.report.note(name, rarest);
        self.report
    }

    fn compare(&mut self, case: &Case) {
        let expected = case.asked(&Plain);
        self.report.count(expected.number);
        if expected.number == MODELLED {
            self.tally(case, expected.written());
        }
        let got = case.asked(self.subject);
        if got != expected {
            self.report
                .differs(|| say(case, &spelt(&expected), &spelt(&got)));
        }
    }

    /// Count what stands in a text.
    fn tally(&mut self, case: &Case, text: &[u8]) {
        let rows = &case.nodes.as_chunks().0[..case.count];
        let rows = marked(rows, &needed(rows, case.root));
        self.report.note("bytes of texts", text.len() as u64);
        self.report.note("nodes that are needed", rows.len() as u64);
        let others = (case.count - rows.len()) as u64;
        self.report.note("nodes that are not", others);
        for row in rows.values() {
            self.written[usize::try_from(row[0]).expect("a kind")] += 1;
        }
    }
}

/// Calls on a list: for some roots, with too little room, with a root that
/// is none, on a damaged list, with a wrong count or without a word.
fn cases(list: &List, rng: &mut Rng) -> Vec<Case> {
    let last = list.len() - 1;
    let roots = [last, rng.below(list.len()), rng.below(list.len())];
    let mut cases: Vec<Case> = roots
        .into_iter()
        .map(|root| Case::new(list, root))
        .collect();
    for root in roots {
        let case = Case::new(list, root);
        let length = case.text().expect("it is written").len();
        let rooms = [length, length - 1, rng.below(length), 0, length + 1];
        cases.extend(rooms.map(|room| Case {
            room,
            ..case.clone()
        }));
    }
    for _ in 0..4 {
        cases.push(spoilt(list, rng));
    }
    cases
}

/// A call that is wrong in one way, now and then in more.
fn spoilt(list: &List, rng: &mut Rng) -> Case {
    let mut case = Case::new(list, rng.below(list.len()));
    loop {
        match rng.below(8) {
            0 | 1 => damage(&mut case.nodes, rng),
            2 => case.root = *rng.pick(&[list.len(), list.len() + 1, MOST, usize::MAX]),
            3 => case.count = rng.below(case.count.saturating_add(1)),
            4 => drop(case.nodes.pop()),
            5 => case.count = case.count.saturating_add(rng.between(1, 2)),
            6 => case.count = *rng.pick(&[MOST, MOST + 1, usize::MAX]),
            _ => case.words = rng.below(WORDS),
        }
        if rng.one_in(4) {
            case.room = rng.below(MOST_BYTES);
        }
        if rng.one_in(4) {
            case.nodes
                .extend((0..rng.below(2 * ROW)).map(|at| at as u64));
        }
        if !rng.one_in(4) {
            return case;
        }
    }
}

/// Lists as long as a list can be: random ones, with a fault at their end,
/// and one of which every node is needed.
fn longest(rng: &mut Rng) -> Vec<Case> {
    let long = random(rng, MOST + 1).first(MOST + 1);
    let mut cases = Vec::new();
    for (count, root) in [(MOST, MOST - 1), (MOST, MOST), (MOST + 1, 0), (MOST - 1, 7)] {
        let case = Case {
            count,
            ..Case::new(&long, root)
        };
        let mut faulty = case.clone();
        faulty.nodes[(MOST - 2) * ROW] = 30;
        cases.extend([case, faulty]);
    }
    cases.push(Case::new(&chain(), MOST - 1));
    cases
}

/// A list of the greatest length in which each node but the first has the one
/// before it twice.
///
/// # Panics
/// Never: it passes the check.
#[must_use]
pub fn chain() -> List {
    let rest = (1..MOST as u64).flat_map(|node| [8, node - 1, node - 1, 0]);
    let nodes: Vec<u64> = [1, u64::MAX, 79, 0].into_iter().chain(rest).collect();
    let sorts = plain::sorts::sorts(&nodes, MOST).expect("it passes");
    List { nodes, sorts }
}

fn say(case: &Case, expected: &str, got: &str) -> String {
    let rows = case.nodes.chunks(ROW).enumerate();
    let rows = rows.map(|(number, row)| format!("  {number}: {row:?}\n"));
    format!(
        "text of root {} of {} nodes in {} words, {} bytes and {} words lent\n{}\
         expected {expected}\ngot      {got}",
        case.root,
        case.count,
        case.nodes.len(),
        case.room,
        case.words,
        rows.collect::<String>()
    )
}

fn spelt(answer: &Answer) -> String {
    let written = String::from_utf8_lossy(answer.written());
    let untouched = answer.text.iter().all(|&byte| byte == BYTE);
    let text = if untouched { "nothing" } else { &written };
    format!("{} {:?}, written:\n{text}", answer.number, answer.words)
}
