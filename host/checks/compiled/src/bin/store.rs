//! Writes `stored/`: for each group and level the disassembly and a few
//! recorded runs of each function, as this machine makes them.
//!
//! `cargo run --offline -p compiled --bin store`

use std::{env, fs, io};

use compiled::code::Code;
use compiled::functions::{GROUPS, Group, LEVELS};
use compiled::gcc::compile;
use compiled::inputs::arena;
use compiled::machine::Machine;
use compiled::stored::{Record, Records, file};
use differential::rng::Rng;

/// Runs of each function at each level.
const RUNS: usize = 6;

fn main() -> io::Result<()> {
    for group in &GROUPS {
        for level in LEVELS {
            store(group, level)?;
        }
    }
    Ok(())
}

fn store(group: &Group, level: &str) -> io::Result<()> {
    let compiled = compile(group, level, &env::temp_dir())?;
    let mut machine = Machine::start(&compiled.program)?;
    let mut rng = Rng::new(1988);
    let mut records = Vec::new();
    for number in (0..group.functions.len()).flat_map(|number| [number; RUNS]) {
        let function = &group.functions[number];
        let code = Code::of(&compiled.objdump, function.name).and_then(|code| code.entry());
        let entry = code.ok_or_else(|| io::Error::other(function.name))?;
        let arena = arena(function, machine.arena, &mut rng);
        records.push(Record {
            function: u32::try_from(number).map_err(io::Error::other)?,
            steps: machine.steps(entry, &arena)?,
            arena,
        });
    }
    let records = Records {
        arena: machine.arena,
        parts: machine.parts.clone(),
        records,
    };
    let bytes = records
        .bytes()
        .ok_or_else(|| io::Error::other("too long"))?;
    fs::write(file(group, level, "runs"), bytes)?;
    fs::write(file(group, level, "objdump"), compiled.objdump)?;
    fs::remove_file(compiled.program)
}
