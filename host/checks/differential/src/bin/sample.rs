//! `sample [FOLDER]`: write the stored samples anew, by default where the
//! replay program has them. A file whose answers cannot be had here is
//! left as it is, with a line that says so. Some of the lists of nodes
//! are lifted by the static library.

use std::io;
use std::path::PathBuf;
use std::process::ExitCode;

use differential::solver::Solver;
use differential::{left_out, sample, sample_formulas, stored};

fn main() -> ExitCode {
    if !sleetgate_sys::at_hand() {
        eprintln!("{}", sleetgate_sys::MISSING);
        return ExitCode::FAILURE;
    }
    match write() {
        Ok(()) => ExitCode::SUCCESS,
        Err(e) => {
            eprintln!("{e}");
            ExitCode::FAILURE
        }
    }
}

fn write() -> io::Result<()> {
    let given = std::env::args().nth(1).map(PathBuf::from);
    let mut files = of_the_rust();
    files.push(("records.bin", sample::records()));
    files.push(("checks.bin", sample_formulas::checks()));
    files.push(("images.bin", sample_formulas::images()));
    if Solver::Z3.at_hand() {
        files.push(("values.bin", sample_formulas::values()?));
    } else {
        left_out(&format!("values.bin: {}", Solver::Z3.missing()));
    }
    for (name, content) in files {
        let path = match &given {
            Some(folder) => folder.join(name),
            None => stored::path(name),
        };
        std::fs::write(path, &content)?;
        println!("{name}: {} bytes", content.len());
    }
    Ok(())
}

/// The files whose answers are the Rust's.
#[cfg(not(no_oracle))]
fn of_the_rust() -> Vec<(&'static str, Vec<u8>)> {
    vec![
        ("instructions.bin", sample::instructions()),
        ("lifts.bin", differential::sample_lifts::lifts()),
    ]
}

#[cfg(no_oracle)]
fn of_the_rust() -> Vec<(&'static str, Vec<u8>)> {
    left_out(differential::NO_ORACLE);
    Vec::new()
}
