//! What texts mean: a solver that reads a text gives each node the value
//! that the evaluator gives it.
//!
//! Every declared constant of kinds 1 to 5 is asserted to be a given value.
//! What rounds the evaluator takes as it is given, so those values are the
//! solver's own, asked of its model; all others are compared. SMT-LIB has one
//! NaN and many patterns of it, so the constant of an `FpToIeeeBv` of NaN may
//! be any of them, and the evaluator's is one: it is asserted too.

use std::collections::BTreeMap;
use std::{io, iter};

use plain::MODELLED;
use plain::smt::{name, needed};
use plain::sorts::{Format, Sort};
use plain::state::ROW;
use plain::values::{VALUE, nan, value, words};

use crate::formulas::{List, lifted, random};
use crate::instructions::Grid;
use crate::report::Report;
use crate::rng::Rng;
use crate::sexpr::{self, Sexpr};
use crate::smtlib::{literal, read, to_fp};
use crate::solver::Solver;
use crate::subject::{Formulas, Texts};

/// Texts that one run of a solver is handed.
const BATCH: usize = 40;

/// Nodes of the longest random list, and bytes lent for a text.
const LONGEST: usize = 40;
const ROOM: usize = 100_000;

/// Random roots of a list, of which the one that needs most is taken.
const ROOTS: usize = 12;

/// How long a solver may think about one text, in milliseconds.
const LONG: u32 = 5_000;
const SHORT: u32 = 1_000;
const MINUTES: u32 = 300_000;

/// A root of a list, with given values.
#[derive(Debug, Clone)]
pub struct Case {
    pub list: List,
    pub root: usize,
    pub given: Vec<u64>,
}

/// The values of nodes.
pub type Values = BTreeMap<usize, u128>;

impl Case {
    fn rows(&self) -> &[[u64; ROW]] {
        self.list.nodes.as_chunks().0
    }

    fn name(&self, node: usize) -> String {
        name(node as u64, &self.rows()[node])
    }

    /// The nodes that the root needs.
    #[must_use]
    pub fn needed(&self) -> Vec<usize> {
        let marks = needed(self.rows(), self.root);
        (0..marks.len()).filter(|&node| marks[node]).collect()
    }

    /// The text, or the number with which it is refused.
    ///
    /// # Errors
    /// The number.
    pub fn text(&self, subject: &dyn Texts) -> Result<String, u32> {
        let (mut text, mut told) = (vec![0; ROOM], [0]);
        let (nodes, count) = (&self.list.nodes, self.list.len());
        let number = subject.smt_write(nodes, count, self.root, &mut text, &mut told);
        if number != MODELLED {
            return Err(number);
        }
        text.truncate(usize::try_from(told[0]).unwrap_or(ROOM));
        String::from_utf8(text).map_err(|_| number)
    }

    /// That a node is worth so much.
    fn worth(&self, node: usize, value: u128) -> String {
        let (name, sort) = (self.name(node), self.list.sorts[node]);
        let bits = literal(Sort::Bits(sort.width()), value);
        match sort {
            Sort::Bits(_) => format!("(= {name} {bits})"),
            Sort::Float(format) => format!("(= {name} {})", to_fp(format, &bits)),
        }
    }

    /// That each constant is its given value, and that the pattern of a NaN
    /// is the one that the evaluator has.
    fn pinned(&self) -> String {
        let mut text = String::new();
        for node in self.needed() {
            let row = self.rows()[node];
            let pin = match row[0] {
                1..=5 => self.worth(node, value(&self.given, node)),
                26 => {
                    let float = usize::try_from(row[1]).expect("an earlier node");
                    let one = self.worth(node, nan(self.format(float)));
                    format!("(=> (fp.isNaN {}) {one})", self.name(float))
                }
                _ => continue,
            };
            text += &format!("(assert {pin})\n");
        }
        text
    }

    fn format(&self, node: usize) -> Format {
        match self.list.sorts[node] {
            Sort::Float(format) => format,
            Sort::Bits(width) => panic!("{node} is of {width} bits"),
        }
    }

    /// Commands that make a solver print the values of what is needed.
    fn asking(&self, text: &str) -> String {
        let names = self.needed().into_iter().map(|node| self.name(node));
        let names: Vec<String> = names.collect();
        let pinned = self.pinned();
        format!(
            "{text}{pinned}(check-sat)\n(get-value ({}))\n",
            names.join(" ")
        )
    }

    /// Commands that make a solver look for another value of the root. The
    /// patterns of floats and integers, which SMT-LIB can leave open, are
    /// those that the solver found before, so that there are such values.
    fn denying(&self, text: &str, values: &Values) -> String {
        let found = values.iter().filter(|(node, _)| {
            let kind = self.rows()[**node][0];
            kind == 27 || kind == 26 && **node != self.root
        });
        let found = found.map(|(&node, &value)| self.worth(node, value));
        let found: String = found.map(|pin| format!("(assert {pin})\n")).collect();
        let root = self.worth(self.root, values[&self.root]);
        let pinned = self.pinned();
        format!("{text}{pinned}{found}(assert (not {root}))\n(check-sat)\n")
    }

    /// The values that a solver printed.
    ///
    /// # Errors
    /// Says what could not be read.
    fn read(&self, printed: &str) -> Result<Values, String> {
        let wrong = || format!("not the values: {printed}");
        let terms = sexpr::all(printed).ok_or_else(wrong)?;
        let [sat, Sexpr::List(pairs)] = &terms[..] else {
            return Err(wrong());
        };
        let needed = self.needed();
        if sat.atom() != Some("sat") || pairs.len() != needed.len() {
            return Err(wrong());
        }
        let read = |(&node, pair): (&usize, &Sexpr)| match pair.list()? {
            [name, text] if name.atom() == Some(&self.name(node)) => {
                Some((node, read(self.list.sorts[node], text)?))
            }
            _ => None,
        };
        let values: Option<Values> = needed.iter().zip(pairs).map(read).collect();
        values.ok_or_else(wrong)
    }

    /// The evaluator's values, where what rounds is worth what a solver said.
    ///
    /// # Errors
    /// The number with which it is refused.
    pub fn evaluated(&self, evaluator: &impl Formulas, said: &Values) -> Result<Values, u32> {
        let mut given = self.given.clone();
        for (&node, &value) in said {
            if let 6.. = self.rows()[node][0] {
                given[node * VALUE..(node + 1) * VALUE].copy_from_slice(&words(value));
            }
        }
        let (mut column, mut out) = (vec![0; given.len()], [0]);
        let (nodes, count) = (&self.list.nodes, self.list.len());
        match evaluator.evaluate(nodes, count, &given, &mut column, &mut out) {
            MODELLED => Ok(said
                .keys()
                .map(|&node| (node, value(&column, node)))
                .collect()),
            number => Err(number),
        }
    }
}

/// The values that a solver which reads the text of a case gives.
///
/// # Errors
/// Where the solver cannot be run, or says something else.
pub fn said(case: &Case, solver: Solver, text: &str) -> io::Result<Values> {
    let said = solver.answers(iter::once(case.asking(text)), MINUTES)?;
    case.read(&said[0]).map_err(io::Error::other)
}

/// Compare the values of `size` texts with a solver's.
///
/// # Errors
/// Where the solver cannot be run.
pub fn run(
    subject: &dyn Texts,
    evaluator: &impl Formulas,
    solver: Solver,
    size: u64,
    seed: u64,
) -> io::Result<Report> {
    let mut report = Report::default();
    for batch in batches(size, seed) {
        let texts = texts(subject, &batch, &mut report);
        let valued = valued(evaluator, solver, texts, &mut report)?;
        denied(solver, &valued, &mut report)?;
    }
    Ok(report)
}

/// A case with its text, and with the values on which a solver and the
/// evaluator agree.
type Valued<'a> = (&'a Case, String, Values);

/// The cases whose values are those of a solver.
fn valued<'a>(
    evaluator: &impl Formulas,
    solver: Solver,
    texts: Vec<(&'a Case, String)>,
    report: &mut Report,
) -> io::Result<Vec<Valued<'a>>> {
    let asking = texts.iter().map(|(case, text)| case.asking(text));
    let said = solver.answers(asking, LONG)?;
    let mut valued = Vec::new();
    for ((case, text), said) in texts.into_iter().zip(&said) {
        match compared(case, evaluator, said) {
            _ if is_open(case, said) => report.note("texts that are left open", 1),
            Ok(values) => {
                tally(case, &values, report);
                valued.push((case, text, values));
            }
            Err(why) => report.differs(|| say(case, &text, &why)),
        }
    }
    Ok(valued)
}

/// No root has another value. One that is an integer is left out: of a number
/// that does not fit it can have any.
fn denied(solver: Solver, valued: &[Valued], report: &mut Report) -> io::Result<()> {
    let integer = |case: &Case| case.rows()[case.root][0] == 27;
    let settled = valued.iter().filter(|(case, ..)| !integer(case));
    let settled: Vec<&Valued> = settled.collect();
    let denying = settled
        .iter()
        .map(|(case, text, values)| case.denying(text, values));
    let said = solver.answers(denying, LONG)?;
    for ((case, text, _), said) in settled.into_iter().zip(&said) {
        match said.as_str() {
            "unsat" => report.note("roots that have no other value", 1),
            _ if is_open(case, said) => report.note("roots that are left open", 1),
            _ => report.differs(|| say(case, text, &format!("another value: {said}"))),
        }
    }
    Ok(())
}

/// Put `size` texts to a solver as they are: it takes each without a word
/// beside its answer, and finds values for its constants, or finds no answer
/// in a second, or breaks down where it is known to.
///
/// # Errors
/// Where the solver cannot be run.
pub fn taken(subject: &dyn Texts, solver: Solver, size: u64, seed: u64) -> io::Result<Report> {
    let mut report = Report::default();
    for batch in batches(size, seed) {
        let texts = texts(subject, &batch, &mut report);
        let asking = texts.iter().map(|(_, text)| format!("{text}(check-sat)\n"));
        let said = solver.answers(asking, SHORT)?;
        for ((case, text), said) in texts.into_iter().zip(&said) {
            match said.as_str() {
                "sat" => report.note("texts that have values", 1),
                "unknown" => report.note("texts without an answer in a second", 1),
                _ if is_open(case, said) => report.note("texts at which it breaks down", 1),
                _ => report.differs(|| say(case, &text, said)),
            }
        }
    }
    Ok(report)
}

/// Random cases, a few at a time.
fn batches(size: u64, seed: u64) -> impl Iterator<Item = Vec<Case>> {
    let (grid, mut rng) = (Grid::default(), Rng::new(seed));
    let mut left = usize::try_from(size).expect("in memory");
    iter::from_fn(move || {
        let now = left.min(BATCH);
        left -= now;
        (now > 0).then(|| (0..now).map(|_| case(&grid, &mut rng)).collect())
    })
}

fn case(grid: &Grid, rng: &mut Rng) -> Case {
    let list = if rng.one_in(3) {
        lifted(grid, rng)
    } else {
        let length = rng.between(1, LONGEST);
        random(rng, length)
    };
    let given = list.given(rng);
    let roots: Vec<usize> = (0..ROOTS).map(|_| rng.below(list.len())).collect();
    let rows = list.nodes.as_chunks().0;
    let needs = |&&root: &&usize| needed(rows, root).iter().filter(|mark| **mark).count();
    let root = *roots.iter().max_by_key(needs).expect("some roots");
    Case { list, root, given }
}

/// The texts of some cases.
fn texts<'a>(
    subject: &dyn Texts,
    cases: &'a [Case],
    report: &mut Report,
) -> Vec<(&'a Case, String)> {
    let mut texts = Vec::new();
    for case in cases {
        report.count(MODELLED);
        match case.text(subject) {
            Ok(text) => texts.push((case, text)),
            Err(number) => report.differs(|| say(case, "", &format!("answer {number}"))),
        }
    }
    texts
}

/// Whether a solver gave up at a text, or broke down where it is known to:
/// cvc5 1.0.3 does so at an integer of 64 bits that is made a float of 15 and
/// 64 bits, unless it knows the integer at once.
fn is_open(case: &Case, said: &str) -> bool {
    let long = |node: &usize| {
        let [kind, a, ..] = case.rows()[*node];
        let operand = usize::try_from(a).expect("a node");
        kind == 28 && case.list.sorts[operand] == Sort::Bits(64)
    };
    said.starts_with("unknown") || said.contains("segfault") && case.needed().iter().any(long)
}

/// The values of a case, where a solver and the evaluator agree on them.
fn compared(case: &Case, evaluator: &impl Formulas, said: &str) -> Result<Values, String> {
    let said = case.read(said)?;
    let refused = |number| format!("the evaluator answers {number}");
    let values = case.evaluated(evaluator, &said).map_err(refused)?;
    let differing = said.iter().find(|(node, value)| values[node] != **value);
    match differing {
        None => Ok(values),
        Some((node, said)) => Err(format!(
            "node {node} is worth {said:#x}, by the evaluator {:#x}",
            values[node]
        )),
    }
}

/// Count what the values were of.
fn tally(case: &Case, values: &Values, report: &mut Report) {
    report.note("nodes compared", values.len() as u64);
    for (&node, &value) in values {
        match (case.rows()[node][0], case.list.sorts[node]) {
            (16..=19 | 23 | 24, _) => report.note("arithmetic", 1),
            (27..=29, _) => report.note("conversions", 1),
            (26, _) => report.note("patterns of floats", 1),
            _ => {}
        }
        if let Sort::Float(format) = case.list.sorts[node] {
            let name = if value == nan(format) {
                "NaNs"
            } else {
                "numbers"
            };
            report.note(name, 1);
        }
    }
}

fn say(case: &Case, text: &str, why: &str) -> String {
    let rows = case.rows().iter().enumerate();
    let rows = rows.map(|(number, row)| format!("  {number}: {row:?}\n"));
    format!(
        "meaning of root {}\n{}given {:x?}\n{text}{}{why}",
        case.root,
        rows.collect::<String>(),
        case.given,
        case.pinned()
    )
}
