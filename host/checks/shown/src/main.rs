//! Writes the shown texts of the cases anew.

use std::fs;
use std::io;

use program::{MISSING, Program};
use shown::CASES;

fn main() -> io::Result<()> {
    let program = Program::at_hand().ok_or_else(|| io::Error::other(MISSING))?;
    for case in CASES {
        fs::write(case.stored(), case.told(&program)?)?;
    }
    Ok(())
}
