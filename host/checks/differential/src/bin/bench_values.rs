//! `bench_values [SECONDS]`: the cost per node of the sort check and of
//! the evaluator, and of the peer that is written in C, on the ready-made
//! lists; and of z3 on those of all kinds.
//!
//! The library and the peer take turns on the same lists, and the values
//! of both are compared. z3 is handed the lists in one process and prints
//! every value; its time is that of the process, from its start to its
//! end. Its values are compared too.

use std::hint::black_box;
use std::process::ExitCode;
use std::time::Instant;

use differential::lists::{self, Ready, works};
use differential::sexpr;
use differential::smtlib::{Formula, Pattern};
use differential::solver::Solver;
use plain::values::{VALUE, words};

/// Turns, of which the middle one counts.
const ROUNDS: usize = 5;

/// Whose calls are made.
#[derive(Clone, Copy)]
enum Side {
    Library,
    Peer,
}

/// A list with what is given to it, and the columns that are lent to the
/// library and to the peer.
struct Work {
    ready: Ready,
    columns: [Vec<u64>; 2],
}

impl Work {
    fn new(ready: Ready) -> Self {
        let column = vec![0; ready.given.len()];
        Self {
            ready,
            columns: [column.clone(), column],
        }
    }

    fn check(&mut self, side: Side) {
        let list = &self.ready.list;
        let check = match side {
            Side::Library => sleetgate_sys::check,
            Side::Peer => peer::check,
        };
        let mut out = [0];
        let answer = check(black_box(&list.nodes), list.len(), &mut out);
        assert_eq!((answer, out), (0, [0]));
    }

    fn evaluate(&mut self, side: Side) {
        let Ready { list, given } = &self.ready;
        let evaluate = match side {
            Side::Library => sleetgate_sys::evaluate,
            Side::Peer => peer::evaluate,
        };
        let column = &mut self.columns[side as usize];
        let (nodes, mut out) = (black_box(&list.nodes), [0]);
        let answer = evaluate(nodes, list.len(), given, column, &mut out);
        assert_eq!((answer, out), (0, [0]));
    }

    fn formula(&self) -> Formula<'_> {
        Formula {
            nodes: &self.ready.list.nodes,
            sorts: &self.ready.list.sorts,
            given: &self.ready.given,
        }
    }
}

fn main() -> ExitCode {
    if !sleetgate_sys::at_hand() {
        eprintln!("{}", sleetgate_sys::MISSING);
        return ExitCode::FAILURE;
    }
    differential::tell_unmeasured();
    if cfg!(no_oracle) {
        println!("{}", differential::NO_ORACLE);
    }
    let seconds = std::env::args().nth(1).and_then(|s| s.parse().ok());
    let seconds = seconds.unwrap_or(0.2);
    let solver = Solver::Z3.at_hand();
    if solver {
        let started = middle((0..ROUNDS).map(|_| z3_time("")));
        println!("z3 without a list: {:.1} ms", started * 1e3);
    } else {
        println!("{}", Solver::Z3.missing());
    }
    let head = ["check", "peer", "ratio", "evaluate", "peer", "ratio", "z3"];
    let head = head.map(|word| format!("{word:>9}")).join("");
    println!("{:<17}{head}", "list");
    for work in works() {
        measure(&work, seconds, solver);
    }
    println!("nanoseconds per node; a ratio is library / peer");
    ExitCode::SUCCESS
}

/// Measure the lists of a work, and print one line.
fn measure(lists: &lists::Work, seconds: f64, solver: bool) {
    let mut work: Vec<Work> = lists.lists().into_iter().map(Work::new).collect();
    let nodes: usize = work.iter().map(|work| work.ready.list.len()).sum();
    let per_node = 1e9 / nodes as f64;
    print!("{:<17}", lists.name);
    for call in [Work::check, Work::evaluate] {
        let [library, peer] = in_turn(&mut work, seconds, call).map(|time| time * per_node);
        print!("{library:>9.2}{peer:>9.2}{:>9.2}", library / peer);
    }
    for work in &work {
        assert!(work.columns[0] == work.columns[1], "the peer's values");
    }
    if solver && lists.is_of_all_kinds() {
        let commands = work.iter().map(|w| w.formula().commands(Pattern::Function));
        let commands: String = commands.collect();
        let z3 = middle((0..ROUNDS).map(|_| z3_time(&commands))) * per_node;
        print!("{z3:>9.0}");
        compare(&work, &commands);
    }
    println!();
}

/// z3's values are those in the columns.
fn compare(work: &[Work], commands: &str) {
    let printed = Solver::Z3.run(commands).expect("z3 runs");
    let printed = sexpr::all(&printed).expect("whole terms");
    assert_eq!(printed.len(), work.len());
    for (work, printed) in work.iter().zip(&printed) {
        let (values, _) = work.formula().read(printed).expect("values");
        let column: Vec<u64> = values.iter().flat_map(|&v| words(v)).collect();
        assert_eq!(column.len(), work.ready.list.len() * VALUE);
        assert!(column == work.columns[0], "another value");
    }
}

/// Seconds of one pass over all lists by the library and by the peer.
fn in_turn(work: &mut [Work], seconds: f64, call: fn(&mut Work, Side)) -> [f64; 2] {
    let mut times = [Vec::new(), Vec::new()];
    for _ in 0..ROUNDS {
        for side in [Side::Library, Side::Peer] {
            let pass = || work.iter_mut().for_each(|work| call(work, side));
            times[side as usize].push(pass_time(seconds / ROUNDS as f64, pass));
        }
    }
    times.map(|times| middle(times.into_iter()))
}

/// The middle of some turns.
fn middle(times: impl Iterator<Item = f64>) -> f64 {
    let mut times: Vec<f64> = times.collect();
    times.sort_by(f64::total_cmp);
    times[times.len() / 2]
}

/// Seconds of one pass, of as many as fill the time.
fn pass_time(seconds: f64, mut pass: impl FnMut()) -> f64 {
    let start = Instant::now();
    let mut passes = 0;
    while passes == 0 || start.elapsed().as_secs_f64() < seconds {
        pass();
        passes += 1;
    }
    start.elapsed().as_secs_f64() / f64::from(passes)
}

fn z3_time(commands: &str) -> f64 {
    let start = Instant::now();
    black_box(Solver::Z3.run(commands).expect("z3 runs"));
    start.elapsed().as_secs_f64()
}
