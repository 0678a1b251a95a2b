//! `bench [SECONDS]`: instructions per second of the Rust, with its real
//! trees, and of the static library, in the same run on the same
//! well-formed sequences: by `x87_lift`, on the instructions' 177 bytes,
//! and by `x87_lift_record`, on their records; and the library's cost per
//! instruction as the node list grows.
//!
//! Both sides get their instructions ready made, print nothing, and start
//! each sequence from a fresh state. The lent lists are not cleared.

use std::process::ExitCode;

#[cfg(no_oracle)]
fn main() -> ExitCode {
    println!("{}", differential::NO_ORACLE);
    ExitCode::SUCCESS
}

#[cfg(not(no_oracle))]
fn main() -> ExitCode {
    if !sleetgate_sys::at_hand() {
        eprintln!("{}", sleetgate_sys::MISSING);
        return ExitCode::FAILURE;
    }
    differential::tell_unmeasured();
    let seconds = std::env::args().nth(1).and_then(|s| s.parse().ok());
    measured::all(seconds.unwrap_or(0.5));
    ExitCode::SUCCESS
}

#[cfg(not(no_oracle))]
mod measured {
    use std::hint::black_box;
    use std::time::{Duration, Instant};

    use differential::instructions::Grid;
    use differential::oracle::spelt;
    use differential::rng::Rng;
    use differential::sequences::Profile;
    use differential::steps::step;
    use differential::work::{self, Lists, ROWS, depth};
    use plain::state::{NODES, STATE, STATEMENTS};
    use plain::{FLAT, Instruction, MODELLED};
    use r2smt_common::program;

    /// Sequences of each work.
    const SEQUENCES: usize = 1_000;

    /// Turns of each side, of which the middle one counts.
    const ROUNDS: usize = 5;

    /// Nodes of a block of the growing list.
    const BLOCK: u64 = 8_192;

    /// Sequences as each side takes them.
    struct Work {
        rust: Vec<Vec<program::Instruction>>,
        rattle: Vec<Vec<[u8; FLAT]>>,
        records: Vec<Vec<u8>>,
        instructions: usize,
    }

    impl Work {
        fn new(sequences: &[Vec<Instruction>]) -> Self {
            let rust = sequences.iter().map(|s| s.iter().map(spelt).collect());
            let rattle = sequences
                .iter()
                .map(|s| s.iter().map(Instruction::to_flat).collect());
            let records = sequences
                .iter()
                .map(|s| s.iter().flat_map(plain::record).collect());
            Self {
                rust: rust.collect(),
                rattle: rattle.collect(),
                records: records.collect(),
                instructions: sequences.iter().map(Vec::len).sum(),
            }
        }
    }

    pub fn all(seconds: f64) {
        println!(
            "{:<16} {:>14} {:>14} {:>7} {:>14} {:>7}",
            "instructions/s", "Rust", "177 bytes", "ratio", "records", "ratio"
        );
        for (number, name) in work::WORKS.into_iter().enumerate() {
            let work = Work::new(&work::sequences(number, SEQUENCES));
            compare(name, &work, seconds);
        }
        growing(&mut Rng::new(87));
    }

    /// Measure the sides in turn, and print the middle of each.
    fn compare(name: &str, work: &Work, seconds: f64) {
        let share = seconds / ROUNDS as f64;
        let (mut rust, mut rattle, mut records) = (Vec::new(), Vec::new(), Vec::new());
        let mut lists = Lists::default();
        for _ in 0..ROUNDS {
            rust.push(rate(work, share, || rust_pass(work)));
            rattle.push(rate(work, share, || lists.lift_all(&work.rattle)));
            records.push(rate(work, share, || lists.lift_records(&work.records)));
        }
        let (rust, rattle, records) = (middle(rust), middle(rattle), middle(records));
        let ratios = (rattle / rust, records / rust);
        println!(
            "{name:<16} {rust:>14.0} {rattle:>14.0} {:>7.2} {records:>14.0} {:>7.2}",
            ratios.0, ratios.1
        );
    }

    fn middle(mut rates: Vec<f64>) -> f64 {
        rates.sort_by(f64::total_cmp);
        rates[rates.len() / 2]
    }

    /// Instructions per second of passes over the work.
    fn rate(work: &Work, seconds: f64, mut pass: impl FnMut()) -> f64 {
        let start = Instant::now();
        let mut passes = 0;
        while start.elapsed().as_secs_f64() < seconds {
            pass();
            passes += 1;
        }
        (passes * work.instructions) as f64 / start.elapsed().as_secs_f64()
    }

    fn rust_pass(work: &Work) {
        for sequence in &work.rust {
            let mut lifter = r2smt_slicer::Lifter::fresh();
            for insn in sequence {
                lifter.lift(black_box(insn));
            }
            black_box(&lifter);
        }
    }

    /// One lift whose node list grows to its full room.
    fn growing(rng: &mut Rng) {
        let sequence = filling(rng);
        let blocks = ROWS / usize::try_from(BLOCK).expect("small") + 1;
        let mut spent = vec![(Duration::ZERO, 0_u32); blocks];
        let mut lists = Lists::default();
        for _ in 0..20 {
            fill(&sequence, &mut lists, &mut spent);
        }
        println!("\nnodes in the list   ns per instruction");
        for (block, (time, count)) in spent.iter().enumerate() {
            let each = time.as_nanos() as f64 / f64::from(*count);
            println!("from {:>6}         {each:>8.1}", block as u64 * BLOCK);
        }
    }

    /// Instructions that fill the node list, none of which declines.
    fn filling(rng: &mut Rng) -> Vec<[u8; FLAT]> {
        let (grid, profile) = (Grid::default(), Profile::plain(1));
        let mut state = [0; STATE];
        let mut sequence = Vec::new();
        loop {
            let insn = profile.next(&grid, rng, depth(&state));
            let next = step(&state, &insn);
            if next.state[NODES] > ROWS as u64 || next.state[STATEMENTS] > ROWS as u64 {
                return sequence;
            }
            if next.answer == MODELLED {
                state = next.state;
                sequence.push(insn.to_flat());
            }
        }
    }

    /// Lift them all from a fresh state, and add up the time by blocks.
    fn fill(sequence: &[[u8; FLAT]], lists: &mut Lists, spent: &mut [(Duration, u32)]) {
        let mut state = [0; STATE];
        let (mut block, mut start, mut count) = (0, Instant::now(), 0);
        for flat in sequence {
            assert_eq!(lists.lift(flat, &mut state), MODELLED);
            count += 1;
            if state[NODES] / BLOCK != block {
                add(
                    &mut spent[usize::try_from(block).expect("small")],
                    start,
                    count,
                );
                (block, start, count) = (state[NODES] / BLOCK, Instant::now(), 0);
            }
        }
        add(
            &mut spent[usize::try_from(block).expect("small")],
            start,
            count,
        );
    }

    fn add(spent: &mut (Duration, u32), start: Instant, count: u32) {
        spent.0 += start.elapsed();
        spent.1 += count;
    }
}
