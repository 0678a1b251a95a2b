//! `count [CALL]`: the machine's instructions in a call of the library or
//! of the peer, as callgrind counts them, over calls that are the same for
//! any library.
//!
//! Each line is a run of its own under valgrind, which counts inside the
//! named call alone. `count CALL WORK` is such a run: it makes the calls
//! and prints how many units they were, of which a line says the cost of
//! one: an instruction lifted, read or classified, a node checked or
//! evaluated.

use std::process::ExitCode;

#[cfg(no_oracle)]
fn main() -> ExitCode {
    println!("{}", differential::NO_ORACLE);
    ExitCode::SUCCESS
}

#[cfg(not(no_oracle))]
fn main() -> ExitCode {
    if !sleetgate_sys::at_hand() {
        eprintln!("{}", sleetgate_sys::MISSING);
        return ExitCode::FAILURE;
    }
    differential::tell_unmeasured();
    let words: Vec<String> = std::env::args().skip(1).collect();
    match words.as_slice() {
        [] => counted::table(&counted::CALLS),
        [call] => counted::table(&[call]),
        [call, work, ..] => counted::make(call, work),
    }
    ExitCode::SUCCESS
}

#[cfg(not(no_oracle))]
mod counted {
    use std::hint::black_box;
    use std::process::Command;

    use differential::lists;
    use differential::work::{Lists, ROWS, WORKS, sequences};
    use plain::{FLAT, Instruction};
    use sleetgate_sys::{DETAIL, EFFECT, FORM, NAMED, READ, VALUE};

    /// The calls that are counted.
    pub const CALLS: [&str; 10] = [
        "x87_lift",
        "x87_lift_record",
        "x87_classify",
        "x87_why",
        "x87_effect",
        "x87_read_record",
        "x87_check",
        "peer_check",
        "x87_evaluate",
        "peer_evaluate",
    ];

    /// Sequences of a work, and the most lists of a work.
    const SEQUENCES: usize = 200;
    const LISTS: usize = 20;

    /// A line for each call and each of its works.
    pub fn table(calls: &[&str]) {
        for call in calls {
            for work in works(call) {
                println!("{call:<16} {work:<17} {:>10.1}", counted(call, &work));
            }
        }
    }

    fn works(call: &str) -> Vec<String> {
        if call.ends_with("check") || call.ends_with("evaluate") {
            lists::works().into_iter().map(|work| work.name).collect()
        } else {
            WORKS.map(str::to_owned).to_vec()
        }
    }

    /// Instructions a unit, counted in a process of its own.
    fn counted(call: &str, work: &str) -> f64 {
        let own = std::env::current_exe().expect("this program has a path");
        let run = Command::new("valgrind")
            .args(["--tool=callgrind", "--callgrind-out-file=/dev/null"])
            .arg(format!("--toggle-collect={call}"))
            .arg(own)
            .args([call, work])
            .output()
            .expect("valgrind runs");
        assert!(run.status.success(), "{run:?}");
        let told = String::from_utf8(run.stderr).expect("text");
        let count = told.lines().find_map(|l| l.split_once("Collected : "));
        let count: f64 = count.expect("a count").1.parse().expect("a number");
        assert!(count > 0.0, "callgrind has not seen {call}");
        let units = String::from_utf8(run.stdout).expect("text");
        count / units.trim().parse::<f64>().expect("a number")
    }

    /// Make the calls, and print their units.
    pub fn make(call: &str, work: &str) {
        let units = match WORKS.iter().position(|&w| w == work) {
            Some(number) => on_sequences(call, &sequences(number, SEQUENCES)),
            None => on_lists(call, work),
        };
        println!("{units}");
    }

    fn on_sequences(call: &str, sequences: &[Vec<Instruction>]) -> usize {
        let flats = sequences.iter().map(|s| s.iter().map(Instruction::to_flat));
        let flats: Vec<Vec<[u8; FLAT]>> = flats.map(Iterator::collect).collect();
        let records = sequences
            .iter()
            .map(|s| s.iter().flat_map(plain::record).collect());
        let records: Vec<Vec<u8>> = records.collect();
        match call {
            "x87_lift" => Lists::default().lift_all(&flats),
            "x87_lift_record" => Lists::default().lift_records(&records),
            "x87_read_record" => records.iter().for_each(|input| read(input)),
            _ => flats.iter().flatten().for_each(|flat| of_flat(call, flat)),
        }
        sequences.iter().map(Vec::len).sum()
    }

    /// Read an input's records one after the other.
    fn read(input: &[u8]) {
        let mut at = 0;
        while at < input.len() {
            let (mut flat, mut told) = ([0; FLAT], [0; READ]);
            let answer = sleetgate_sys::read_record(black_box(input), at, &mut flat, &mut told);
            assert_eq!((answer, told[1]), (0, 1));
            at = usize::try_from(told[0]).expect("a place");
        }
    }

    fn of_flat(call: &str, flat: &[u8; FLAT]) {
        let answer = match call {
            "x87_classify" => sleetgate_sys::classify(black_box(flat), &mut [0; FORM]),
            "x87_why" => sleetgate_sys::why(black_box(flat), &mut [0; DETAIL]),
            "x87_effect" => sleetgate_sys::effect(black_box(flat), &mut [0; EFFECT]),
            _ => panic!("no such call: {call}"),
        };
        assert_eq!(answer, 0);
    }

    /// Check or evaluate the lists of a work. Nothing is made or dropped
    /// between the calls and behind them: on Arm callgrind misses the end
    /// of some, and goes on counting.
    fn on_lists(call: &str, work: &str) -> usize {
        let work = lists::work(work).unwrap_or_else(|| panic!("no such work: {work}"));
        let (mut column, mut out) = (vec![0; ROWS * VALUE], [0; NAMED]);
        let mut units = 0;
        for lists::Ready { list, given } in work.lists().leak().iter().take(LISTS) {
            let (nodes, count) = (black_box(&list.nodes), list.len());
            let answer = match call {
                "x87_check" => sleetgate_sys::check(nodes, count, &mut out),
                "peer_check" => peer::check(nodes, count, &mut out),
                "x87_evaluate" => {
                    sleetgate_sys::evaluate(nodes, count, given, &mut column, &mut out)
                }
                "peer_evaluate" => peer::evaluate(nodes, count, given, &mut column, &mut out),
                _ => panic!("no call on lists: {call}"),
            };
            assert_eq!((answer, out), (0, [0]));
            units += count;
        }
        units
    }
}
