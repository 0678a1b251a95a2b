//! `store_texts`: write the stored texts anew, with what z3 and cvc5 say of
//! them.

use std::fs;
use std::io;
use std::process::ExitCode;

use differential::solver::Solver;
use differential::stored_texts::{files, path};

fn main() -> ExitCode {
    if let Some(solver) = Solver::ALL.into_iter().find(|solver| !solver.at_hand()) {
        eprintln!("{}", solver.missing());
        return ExitCode::FAILURE;
    }
    match write() {
        Ok(()) => ExitCode::SUCCESS,
        Err(e) => {
            eprintln!("{e}");
            ExitCode::FAILURE
        }
    }
}

fn write() -> io::Result<()> {
    for (name, content) in files()? {
        fs::write(path(&name), &content)?;
        println!("{name}: {} bytes", content.len());
    }
    Ok(())
}
