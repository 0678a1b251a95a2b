//! Stored texts: formulas of the manual's examples and of all kinds, their
//! text, and what both solvers that read it said of some values.
//!
//! `NAME.smt2` is the text. `NAME.values` has lines of: the nodes (`n`, then
//! number, kind, a, b and c), the root (`root`, then its number), and for
//! each time that the solvers were asked `values` and behind it the value of
//! each needed node (`v`, then number and value in hexadecimal). The values
//! of kinds 1 to 5 were given to them.

use std::fs;
use std::io;
use std::path::PathBuf;

use plain::MODELLED;
use plain::smt::{compact, marked, needed};
use plain::sorts::sorts;
use plain::state::ROW;
use plain::values::{VALUE, words};

use crate::formulas::List;
use crate::report::Report;
use crate::solver::Solver;
use crate::subject::{Formulas, Plain, Texts};
use crate::text_values::{Case, Values, said};

/// A formula that is stored.
struct Formula {
    name: &'static str,
    rows: &'static [[u64; ROW]],
    root: usize,
    /// The nodes that are given values, and their values, each time.
    given: (&'static [usize], &'static [&'static [u128]]),
}

/// Patterns of floats of the stack's own format.
const ONE: u128 = 0x1fff_8000_0000_0000_0000;
const SMALL: u128 = 0x1fd0_4000_0000_0000_0001;
const LARGE: u128 = 0x2002_c880_0000_0000_0000;
const INFINITY: u128 = 0x3fff_8000_0000_0000_0000;
const A_NAN: u128 = 0x7fff_8000_0000_0000_0123;
const MINUS: u128 = 0x4000_0000_0000_0000_0000;

/// `faddp` (P6).
const SUM: &[[u64; ROW]] = &[
    [1, 0, 79, 0],
    [1, 1, 79, 0],
    [25, 1, 0, 3904],
    [25, 0, 0, 3904],
    [16, 2, 3, 0],
    [26, 4, 0, 0],
];

/// `fcomi st(0), st(1)` (P10), whose CF is node 10.
const FLAGS: &[[u64; ROW]] = &[
    [1, 0, 79, 0],
    [1, 1, 79, 0],
    [25, 0, 0, 3904],
    [25, 1, 0, 3904],
    [22, 2, 0, 0],
    [22, 3, 0, 0],
    [11, 4, 5, 0],
    [20, 2, 3, 0],
    [11, 6, 7, 0],
    [21, 2, 3, 0],
    [11, 6, 9, 0],
    [6, 0, 0, 1],
    [6, 0, 0, 1],
];

/// `fld` at 80 bits (P12).
const IMAGE: &[[u64; ROW]] = &[
    [2, 0, 80, 0],
    [1, 0, 79, 0],
    [14, 0, 79, 79],
    [14, 0, 78, 64],
    [14, 0, 63, 63],
    [14, 0, 62, 0],
    [6, 0, 0, 15],
    [9, 3, 6, 0],
    [6, 1, 0, 1],
    [9, 4, 8, 0],
    [12, 9, 0, 0],
    [10, 7, 10, 0],
    [12, 7, 0, 0],
    [10, 12, 9, 0],
    [11, 11, 13, 0],
    [15, 3, 5, 0],
    [15, 2, 15, 0],
    [13, 14, 16, 1],
];

/// All kinds, all of them needed but node 7.
const KINDS: &[[u64; ROW]] = &[
    [1, 7, 79, 0],
    [2, 0, 64, 0],
    [3, 12, 80, 0],
    [4, 0, 0, 0],
    [5, 1, 0, 0],
    [6, 5, 1, 79],
    [7, 0, 5, 0],
    [4, 0, 0, 0],
    [8, 6, 0, 0],
    [9, 6, 8, 0],
    [10, 9, 4, 0],
    [11, 10, 9, 0],
    [12, 11, 0, 0],
    [13, 12, 8, 6],
    [14, 13, 78, 64],
    [15, 14, 1, 0],
    [25, 15, 0, 3904],
    [25, 0, 0, 3904],
    [16, 16, 17, 0],
    [17, 18, 16, 1],
    [18, 18, 19, 0],
    [19, 20, 19, 1],
    [20, 20, 21, 0],
    [21, 20, 21, 0],
    [22, 21, 0, 0],
    [23, 21, 0, 0],
    [24, 25, 1, 0],
    [26, 26, 0, 0],
    [27, 26, 1, 32],
    [28, 28, 0, 3904],
    [29, 29, 1, 2869],
    [26, 30, 0, 0],
    [14, 27, 15, 0],
    [8, 32, 3, 0],
    [14, 2, 79, 79],
    [10, 22, 23, 0],
    [11, 24, 35, 0],
    [13, 36, 34, 12],
    [14, 31, 62, 0],
    [15, 37, 38, 0],
    [15, 39, 33, 0],
];

/// Two numbers of each class and of each order.
const PAIRS: &[&[u128]] = &[
    &[ONE, LARGE],
    &[LARGE, SMALL | MINUS],
    &[0, MINUS],
    &[INFINITY, INFINITY | MINUS],
    &[A_NAN, ONE],
];

/// An image with a number, and two without, beside a free pattern.
const IMAGES: &[&[u128]] = &[
    &[0x3fff_8000_0000_0000_0001, LARGE],
    &[0x0000_8000_0000_0000_0000, LARGE],
    &[0xbfff_0000_0000_0000_0001, SMALL],
];

/// Values with which the square root is that of a small number, so that its
/// integer is not left open.
const VARIABLES: &[&[u128]] = &[
    &[LARGE, 0x8000_0000_0000_0000, 1 << 79, 0x1234, 1],
    &[LARGE | 5, 0xd123_4567_89ab_cdef, 1, 0xffff, 0],
    &[ONE, 0x4000_0000_0000_0001, 0, 0, 1],
];

/// The formulas that are stored.
const FORMULAS: [Formula; 4] = [
    Formula {
        name: "sum",
        rows: SUM,
        root: 5,
        given: (&[0, 1], PAIRS),
    },
    Formula {
        name: "flags",
        rows: FLAGS,
        root: 10,
        given: (&[0, 1], PAIRS),
    },
    Formula {
        name: "image",
        rows: IMAGE,
        root: 17,
        given: (&[0, 1], IMAGES),
    },
    Formula {
        name: "kinds",
        rows: KINDS,
        root: 40,
        given: (&[0, 1, 2, 3, 4], VARIABLES),
    },
];

/// A stored text, with what it is of.
struct Stored {
    text: String,
    list: List,
    root: usize,
    /// The values of the needed nodes, each time.
    values: Vec<Values>,
}

/// The stored files with their contents, by both solvers.
///
/// # Errors
/// Where a solver cannot be run or does not take a text, or where the two do
/// not agree.
pub fn files() -> io::Result<Vec<(String, String)>> {
    let mut files = Vec::new();
    for formula in FORMULAS {
        let Formula {
            name, rows, root, ..
        } = formula;
        let (text, values) = formula.asked()?;
        files.push((format!("{name}.smt2"), text));
        files.push((format!("{name}.values"), spelt(rows, root, &values)));
    }
    Ok(files)
}

impl Formula {
    fn list(&self) -> List {
        let nodes = self.rows.concat();
        let sorts = sorts(&nodes, self.rows.len()).expect("it passes");
        List { nodes, sorts }
    }

    /// The text, and what both solvers say of it each time.
    fn asked(&self) -> io::Result<(String, Vec<Values>)> {
        let (nodes, times) = self.given;
        let (mut text, mut all) = (String::new(), Vec::new());
        for values in times {
            let given = nodes.iter().copied().zip(values.iter().copied());
            let case = case(&self.list(), self.root, &given.collect());
            text = case.text(&Plain).expect("it is written");
            let [one, other] = Solver::ALL.map(|solver| said(&case, solver, &text));
            let (one, other) = (one?, other?);
            if one != other {
                return Err(io::Error::other(format!("z3 {one:x?}\ncvc5 {other:x?}")));
            }
            all.push(one);
        }
        Ok((text, all))
    }
}

/// The case of a root with some values, and zeros for all others.
fn case(list: &List, root: usize, values: &Values) -> Case {
    let mut given = vec![0; list.len() * VALUE];
    for (&node, &value) in values {
        given[node * VALUE..(node + 1) * VALUE].copy_from_slice(&words(value));
    }
    Case {
        list: list.clone(),
        root,
        given,
    }
}

fn spelt(rows: &[[u64; ROW]], root: usize, values: &[Values]) -> String {
    let rows = rows.iter().enumerate();
    let rows = rows.map(|(n, [kind, a, b, c])| format!("n {n} {kind} {a} {b} {c}\n"));
    let mut text = rows.collect::<String>() + &format!("root {root}\n");
    for values in values {
        text += "values\n";
        for (node, value) in values {
            text += &format!("v {node} {value:x}\n");
        }
    }
    text
}

/// Where a file is stored.
#[must_use]
pub fn path(name: &str) -> PathBuf {
    let folder = PathBuf::from(env!("CARGO_MANIFEST_DIR")).join("texts");
    folder.join(name)
}

fn file(name: &str) -> String {
    let path = path(name);
    fs::read_to_string(&path).unwrap_or_else(|e| panic!("{}: {e}", path.display()))
}

impl Stored {
    fn read(name: &str) -> Self {
        let (mut nodes, mut root, mut values) = (Vec::new(), 0, Vec::new());
        for line in file(&format!("{name}.values")).lines() {
            let words: Vec<&str> = line.split(' ').collect();
            let number = |text: &str| text.parse::<usize>().expect("a number");
            match words[..] {
                ["n", _, ref row @ ..] => {
                    let fields = row.iter().map(|field| field.parse::<u64>());
                    nodes.extend(fields.map(|field| field.expect("a number")));
                }
                ["root", node] => root = number(node),
                ["values"] => values.push(Values::new()),
                ["v", node, value] => {
                    let value = u128::from_str_radix(value, 16).expect("a value");
                    let last = values.last_mut().expect("values begin");
                    last.insert(number(node), value);
                }
                _ => panic!("{name}.values: {line}"),
            }
        }
        let sorts = sorts(&nodes, nodes.len() / ROW).expect("it passes");
        Self {
            text: file(&format!("{name}.smt2")),
            list: List { nodes, sorts },
            root,
            values,
        }
    }

    fn case(&self, values: &Values) -> Case {
        case(&self.list, self.root, values)
    }

    /// What the text is read as.
    fn rows(&self) -> Vec<[u64; ROW]> {
        let rows = self.list.nodes.as_chunks().0;
        compact(&marked(rows, &needed(rows, self.root)))
    }

    fn write(&self, subject: &dyn Texts, report: &mut Report) {
        report.count(MODELLED);
        let written = self.case(&Values::new()).text(subject);
        if written.as_deref() != Ok(&self.text) {
            report.differs(|| format!("stored text\n{}\nwritten {written:?}", self.text));
        }
    }

    fn read_back(&self, subject: &dyn Texts, report: &mut Report) {
        report.count(MODELLED);
        let rows = self.rows();
        let (mut nodes, mut told) = (vec![0; rows.len() * ROW], [0]);
        let number = subject.smt_read(self.text.as_bytes(), &mut nodes, &mut told);
        if (number, told, nodes.as_chunks().0) != (MODELLED, [rows.len() as u64], &rows[..]) {
            let got = format!("{number} {told:?} {nodes:?}");
            report.differs(|| format!("stored text\n{}\nread {got}", self.text));
        }
    }

    fn evaluate(&self, evaluator: &impl Formulas, report: &mut Report) {
        for values in &self.values {
            report.count(MODELLED);
            let got = self.case(values).evaluated(evaluator, values);
            if got.as_ref() != Ok(values) {
                report.differs(|| {
                    format!(
                        "stored text\n{}\nstored {values:x?}\ngot {got:x?}",
                        self.text
                    )
                });
            }
        }
    }
}

/// Compare what is written with what is stored.
pub fn written(subject: &dyn Texts) -> Report {
    let mut report = Report::default();
    for Formula { name, .. } in FORMULAS {
        Stored::read(name).write(subject, &mut report);
    }
    report
}

/// Compare what is read of the stored texts with what they are of.
pub fn read(subject: &dyn Texts) -> Report {
    let mut report = Report::default();
    for Formula { name, .. } in FORMULAS {
        Stored::read(name).read_back(subject, &mut report);
    }
    report
}

/// Compare the evaluator with what the solvers said of the stored texts.
pub fn values(evaluator: &impl Formulas) -> Report {
    let mut report = Report::default();
    for Formula { name, .. } in FORMULAS {
        Stored::read(name).evaluate(evaluator, &mut report);
    }
    report
}
