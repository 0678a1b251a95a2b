//! The evaluator, compared node by node with a solver; and its refusals,
//! compared with their rules said plainly.

use std::io;

use plain::sorts::{Format, Sort, Verdict};
use plain::state::ROW;
use plain::values::{VALUE, evaluable, takes_given, value, words};

use crate::damage::damage;
use crate::formulas::{List, lifted, random};
use crate::instructions::Grid;
use crate::report::Report;
use crate::rng::Rng;
use crate::sexpr::Sexpr;
use crate::smtlib::{Formula, Pattern};
use crate::solver::Solver;
use crate::subject::Formulas;

/// Lists that one run of a solver is handed.
const BATCH: usize = 250;

/// Nodes of the longest random list.
const LONGEST: usize = 60;

/// What an unwritten word holds.
const UNWRITTEN: u64 = 0xa5a5_0000_5a5a_0000;

/// What one call is lent.
#[derive(Debug, Clone)]
pub struct Case {
    pub nodes: Vec<u64>,
    pub count: usize,
    pub given: Vec<u64>,
    /// Words lent for the values, and for the node that is named.
    pub column: usize,
    pub words: usize,
}

impl Case {
    /// The call on a whole list.
    #[must_use]
    pub fn new(list: &List, given: Vec<u64>) -> Self {
        Self {
            nodes: list.nodes.clone(),
            count: list.len(),
            column: given.len(),
            given,
            words: 1,
        }
    }

    /// The sorts of a call that is not refused, or the verdict.
    ///
    /// # Errors
    /// The number and node of the refusal.
    pub fn expected(&self) -> Result<Vec<Sort>, Verdict> {
        if self.words == 0 {
            return Err(Verdict::SHORT);
        }
        evaluable(&self.nodes, self.count, &self.given, self.column)
    }

    fn formula<'a>(&'a self, sorts: &'a [Sort]) -> Formula<'a> {
        Formula {
            nodes: &self.nodes,
            sorts,
            given: &self.given,
        }
    }

    fn asked(&self, subject: &impl Formulas) -> Answer {
        let mut column = vec![UNWRITTEN; self.column];
        let mut words = vec![UNWRITTEN; self.words];
        let number = subject.evaluate(
            &self.nodes,
            self.count,
            &self.given,
            &mut column,
            &mut words,
        );
        Answer {
            number,
            words,
            column,
        }
    }

    /// What a call gives back that answers so.
    fn answer(&self, verdict: Verdict, values: &[u128]) -> Answer {
        let mut answer = Answer {
            number: verdict.number,
            words: vec![UNWRITTEN; self.words],
            column: values.iter().flat_map(|&v| words(v)).collect(),
        };
        answer.column.resize(self.column, UNWRITTEN);
        if let Some(word) = answer.words.first_mut() {
            *word = verdict.node;
        }
        answer
    }
}

/// A number, and what was lent after the call.
#[derive(Debug, Clone, PartialEq, Eq)]
struct Answer {
    number: u32,
    words: Vec<u64>,
    column: Vec<u64>,
}

/// Compare the values of `size` lists with a solver, and beside them
/// calls that are refused.
///
/// # Errors
/// Where the solver cannot be run.
pub fn run(subject: &impl Formulas, solver: Solver, size: u64, seed: u64) -> io::Result<Report> {
    let grid = Grid::default();
    let mut rng = Rng::new(seed);
    let mut report = Report::default();
    let mut left = usize::try_from(size).expect("in memory");
    while left > 0 {
        let batch: Vec<Case> = (0..left.min(BATCH))
            .map(|_| case(&grid, &mut rng))
            .collect();
        left -= batch.len();
        for case in &batch {
            if rng.one_in(2) {
                refused(subject, case, &mut rng, &mut report);
            }
        }
        evaluated(subject, solver, &batch, &mut report)?;
    }
    Ok(report)
}

/// Compare the values of `size` lists with those that another subject has,
/// and beside them calls that are refused.
pub fn beside(subject: &impl Formulas, other: &impl Formulas, size: u64, seed: u64) -> Report {
    let grid = Grid::default();
    let mut rng = Rng::new(seed);
    let mut report = Report::default();
    while report.compared < size {
        let case = case(&grid, &mut rng);
        refused(subject, &case, &mut rng, &mut report);
        alike(subject, other, &case, &mut report);
    }
    report
}

/// A call that both answer in the same way.
pub fn alike(subject: &impl Formulas, other: &impl Formulas, case: &Case, report: &mut Report) {
    let (got, expected) = (case.asked(subject), case.asked(other));
    report.count(expected.number);
    report.note("nodes evaluated", case.count as u64);
    if got != expected {
        report.differs(|| say_values(case, &expected, &got, true));
    }
}

/// A list with values that fit, of which a few more words may be lent.
pub fn case(grid: &Grid, rng: &mut Rng) -> Case {
    let list = if rng.one_in(8) {
        lifted(grid, rng)
    } else {
        let length = rng.between(1, LONGEST);
        random(rng, length)
    };
    let given = list.given(rng);
    let mut case = Case::new(&list, given);
    if rng.one_in(4) {
        case.nodes.extend((0..rng.below(2 * ROW)).map(|_| u64::MAX));
        case.given.extend((0..rng.below(4)).map(|_| u64::MAX));
        case.column += rng.below(4);
        case.words += rng.below(3);
    }
    case
}

/// A call that is refused: a damaged list, values too wide, slices too
/// short. One that is not, after all, is left out.
fn refused(subject: &impl Formulas, good: &Case, rng: &mut Rng, report: &mut Report) {
    let mut case = good.clone();
    spoil(&mut case, rng);
    let Err(verdict) = case.expected() else {
        return;
    };
    let expected = case.answer(verdict, &[]);
    report.count(expected.number);
    let got = case.asked(subject);
    if got != expected {
        report.differs(|| say(&case, &format!("{expected:?}"), &format!("{got:?}")));
    }
}

/// Make a call wrong in one way, now and then in more.
pub fn spoil(case: &mut Case, rng: &mut Rng) {
    loop {
        match rng.below(8) {
            0 | 5 => damage(&mut case.nodes, rng),
            1 => case.given.truncate((case.count * VALUE).saturating_sub(1)),
            2 => case.column = (case.count * VALUE).saturating_sub(1),
            3 => case.nodes.truncate((case.count * ROW).saturating_sub(1)),
            4 => case.count += rng.between(1, 3),
            _ => widen(case, rng),
        }
        if rng.one_in(32) {
            case.words = 0;
        }
        if !rng.one_in(8) {
            return;
        }
    }
}

/// Give one node a value of more bits than it has.
fn widen(case: &mut Case, rng: &mut Rng) {
    let rows = case.nodes.chunks_exact(ROW);
    let taking = rows.enumerate().filter(|(_, row)| takes_given(row[0]));
    let taking: Vec<usize> = taking.map(|(node, _)| node).collect();
    let sorts = plain::sorts::sorts(&case.nodes, case.count).unwrap_or_default();
    if taking.is_empty() {
        return;
    }
    let node = *rng.pick(&taking);
    let (Some(sort), Some(lent)) = (
        sorts.get(node),
        case.given.get_mut(node * VALUE..(node + 1) * VALUE),
    ) else {
        return;
    };
    let width = sort.width();
    let wide = match rng.below(3) {
        0 => 1 << width,
        1 => 1 << (u128::from(rng.word()) % u128::from(128 - width)) << width,
        _ => u128::MAX,
    };
    lent.copy_from_slice(&words(wide));
}

/// The values of lists that are not refused, by z3.
///
/// # Errors
/// Where z3 cannot be run.
pub fn by_z3(cases: &[Case]) -> io::Result<Vec<Vec<u128>>> {
    let sorts: Vec<Vec<Sort>> = cases.iter().map(sorts_of).collect();
    let commands = cases.iter().zip(&sorts);
    let commands = commands.map(|(case, sorts)| case.formula(sorts).commands(Pattern::Function));
    let printed = printed(Solver::Z3, &commands.collect::<String>(), cases.len())?;
    let mut values = Vec::new();
    for ((case, sorts), printed) in cases.iter().zip(&sorts).zip(&printed) {
        let read = case.formula(sorts).read(printed);
        values.push(read.map_err(io::Error::other)?.0);
    }
    Ok(values)
}

/// What a solver prints, one term for each list.
fn printed(solver: Solver, commands: &str, lists: usize) -> io::Result<Vec<Sexpr>> {
    let printed = solver.print(commands)?;
    if printed.len() != lists {
        let first = printed.first().map(ToString::to_string);
        let what = format!("{} terms for {lists} lists: {first:?}", printed.len());
        return Err(io::Error::other(what));
    }
    Ok(printed)
}

/// Lists with values that fit: each value is the solver's.
fn evaluated(
    subject: &impl Formulas,
    solver: Solver,
    cases: &[Case],
    report: &mut Report,
) -> io::Result<()> {
    let sorts: Vec<Vec<Sort>> = cases.iter().map(sorts_of).collect();
    let got: Vec<Answer> = cases.iter().map(|case| case.asked(subject)).collect();
    let mut commands = String::new();
    for ((case, sorts), got) in cases.iter().zip(&sorts).zip(&got) {
        let pattern = match solver {
            Solver::Z3 => Pattern::Function,
            Solver::Cvc5 => Pattern::Column(&got.column),
        };
        commands += &case.formula(sorts).commands(pattern);
    }
    let printed = printed(solver, &commands, cases.len())?;
    for (((case, sorts), got), printed) in cases.iter().zip(&sorts).zip(&got).zip(&printed) {
        report.count(plain::MODELLED);
        let (values, truths) = case
            .formula(sorts)
            .read(printed)
            .map_err(io::Error::other)?;
        tally(case, sorts, &values, report);
        let expected = case.answer(Verdict::PASSED, &values);
        if *got != expected || !truths {
            report.differs(|| say_values(case, &expected, got, truths));
        }
    }
    Ok(())
}

fn sorts_of(case: &Case) -> Vec<Sort> {
    let sorts = case.expected();
    sorts.unwrap_or_else(|v| panic!("a list that is refused: {v:?}\n{case:?}"))
}

/// Count what the values were.
fn tally(case: &Case, sorts: &[Sort], values: &[u128], report: &mut Report) {
    report.note("lists evaluated", 1);
    report.note("nodes evaluated", case.count as u64);
    let kinds = case.nodes.chunks_exact(ROW).map(|row| row[0]);
    for ((kind, sort), &value) in kinds.zip(sorts).zip(values) {
        if let Sort::Float(format) = *sort {
            report.note(class(format, value), 1);
            report.note(of_format(format), 1);
        }
        match (kind, value) {
            (20 | 21, 0) => report.note("compares of floats that are false", 1),
            (20 | 21, _) => report.note("compares of floats that are true", 1),
            (26, _) => report.note("patterns of floats", 1),
            _ => {}
        }
    }
}

fn of_format(format: Format) -> &'static str {
    match format.exponent {
        8 => "floats of 8 and 24 bits",
        11 => "floats of 11 and 53 bits",
        _ => "floats of 15 and 64 bits",
    }
}

/// What kind of number a pattern is, as a report names it.
fn class(format: Format, pattern: u128) -> &'static str {
    let fraction = format.significand - 1;
    let highest = (1 << format.exponent) - 1;
    let bits = pattern & ((1 << fraction) - 1);
    match (pattern >> fraction & highest, bits) {
        (0, 0) => "zeros",
        (0, _) => "subnormal numbers",
        (exponent, 0) if exponent == highest => "infinities",
        (exponent, _) if exponent == highest => "NaNs",
        _ => "normal numbers",
    }
}

fn say(case: &Case, expected: &str, got: &str) -> String {
    let rows = case.nodes.chunks(ROW).enumerate();
    let rows = rows.map(|(number, row)| format!("  {number}: {row:?}\n"));
    format!(
        "evaluation of {} nodes, {} words lent for values, {} for a node\n{}given {:x?}\n\
         expected {expected}\ngot      {got}",
        case.count,
        case.column,
        case.words,
        rows.collect::<String>(),
        case.given
    )
}

/// The first node whose value differs, with the rows up to it.
fn say_values(case: &Case, expected: &Answer, got: &Answer, truths: bool) -> String {
    let full = got.column.len() >= case.count * VALUE;
    let first = (0..case.count)
        .find(|&node| full && value(&expected.column, node) != value(&got.column, node));
    let Some(node) = first else {
        let expected = format!("{expected:x?}, patterns of floats right: {truths}");
        return say(case, &expected, &format!("{got:x?}"));
    };
    let mut head = case.clone();
    head.nodes.truncate((node + 1) * ROW);
    head.given.truncate((node + 1) * VALUE);
    let at = |answer: &Answer| {
        let value = value(&answer.column, node);
        format!("{} with node {node} worth {value:#x}", answer.number)
    };
    say(&head, &at(expected), &at(got))
}
