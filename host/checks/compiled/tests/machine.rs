//! The shown text beside what the machine does.

use std::fs;
use std::io::{self, Write as _};
use std::path::Path;

use compiled::check::Check;
use compiled::code::Code;
use compiled::functions::{DECLINED, Function, GROUPS, Group, LEVELS};
use compiled::gcc::{Compiled, compile};
use compiled::inputs::arena;
use compiled::machine::Machine;
use compiled::reading::Counts;
use compiled::run::ARENA;
use compiled::stored::{Records, file};
use compiled::way::Asked;
use differential::processor::tell_emulated;
use differential::rng::Rng;
use program::{MISSING, Program};

/// Runs of each function at each level.
const RUNS: usize = 100;

/// Kinds of lines that are compared.
const KINDS: usize = 11;

/// Past the test harness's capture.
fn left_out(why: &str) {
    // A line that cannot be written is no reason to fail.
    let _ = writeln!(io::stderr(), "left out: {why}");
}

/// The program, or a line that says why nothing is tested.
fn program() -> Option<Program> {
    let program = Program::at_hand();
    if program.is_none() {
        left_out(MISSING);
    }
    program
}

/// A function of a disassembly, as it is asked for.
fn asked<'a>(objdump: &'a str, function: &Function) -> Asked<'a> {
    Asked {
        objdump,
        function: function.name,
        assume_reset: false,
    }
}

/// Compile a group, start it, and see that a function runs.
fn started(group: &Group, level: &str) -> io::Result<(Compiled, Machine)> {
    let compiled = compile(group, level, Path::new(env!("CARGO_TARGET_TMPDIR")))?;
    let mut machine = Machine::start(&compiled.program)?;
    let code = Code::of(&compiled.objdump, group.functions[0].name);
    let entry = code
        .and_then(|code| code.entry())
        .ok_or(io::ErrorKind::NotFound)?;
    machine.run(entry, &[0; ARENA])?;
    Ok((compiled, machine))
}

/// All that was compared.
struct Test {
    program: Program,
    rng: Rng,
    counts: Counts,
    ways: usize,
    differences: Vec<String>,
}

impl Test {
    /// Run a function and compare, up to the first difference.
    fn function(
        &mut self,
        objdump: &str,
        function: &Function,
        machine: &mut Machine,
    ) -> Result<(), String> {
        let program = self.program.clone();
        let check = Check::new(&program, asked(objdump, function));
        let mut check = check.ok_or("the function is not there")?;
        let entry = check.entry().ok_or("a function has code")?;
        for _ in 0..RUNS {
            let arena = arena(function, machine.arena, &mut self.rng);
            let run = machine.run(entry, &arena).map_err(|why| why.to_string())?;
            check.run(&run, &machine.parts, &mut self.counts)?;
        }
        self.ways += check.texts().count();
        let declined = check
            .texts()
            .find(|text| text.contains("the stack is forgotten here"));
        match declined.filter(|_| !DECLINED.contains(&function.name)) {
            Some(text) => Err(format!("{} is declined in\n{text}", function.name)),
            None => Ok(()),
        }
    }

    fn group(&mut self, group: &Group, level: &str) -> io::Result<()> {
        let (compiled, mut machine) = started(group, level)?;
        for function in group.functions {
            let told = self.function(&compiled.objdump, function, &mut machine);
            let difference = told.err().map(|why| format!("{}{level} {why}", group.name));
            self.differences.extend(difference);
        }
        Ok(())
    }
}

#[test]
fn texts_are_what_the_machine_does() {
    let Some(program) = program() else { return };
    let mut test = Test {
        program,
        rng: Rng::new(87),
        counts: Counts::new(),
        ways: 0,
        differences: Vec::new(),
    };
    let failed = all().filter_map(|(group, level)| {
        let done = test.group(group, level);
        done.err()
            .map(|why| format!("{}{level}: {why}", group.name))
    });
    let failed: Vec<String> = failed.collect();
    if let Some(first) = failed.first() {
        let count = failed.len();
        left_out(&format!(
            "{count} groups are not compiled or not run here, recorded runs are the test; {first}"
        ));
    }
    println!("{} ways: {:?}", test.ways, test.counts);
    let differences = test.differences.join("\n");
    assert!(differences.is_empty(), "{differences}");
    let all = failed.is_empty();
    assert!(!all || test.counts.len() == KINDS, "{:?}", test.counts);
}

/// Each group at each level.
fn all() -> impl Iterator<Item = (&'static Group, &'static str)> {
    GROUPS
        .iter()
        .flat_map(|group| LEVELS.map(|level| (group, level)))
}

#[test]
fn texts_are_what_the_recorded_runs_did() {
    let Some(program) = program() else { return };
    tell_emulated();
    for (group, level) in all() {
        let objdump = fs::read_to_string(file(group, level, "objdump")).expect("it is stored");
        let stored = Records::load(group, level).expect("they are stored");
        assert!(!stored.records.is_empty());
        for record in &stored.records {
            let function = &group.functions[record.function as usize];
            let mut check = Check::new(&program, asked(&objdump, function)).expect("it is there");
            let run = record.run(stored.arena).expect("a run");
            let told = check.run(&run, &stored.parts, &mut Counts::new());
            assert_eq!(told, Ok(()), "{}{level}", group.name);
        }
    }
}
