//! Sets `cfg(no_oracle)` where the r2SMT sources are not at hand, and
//! says so. Where the machine is not x86-64, makes the program that has an
//! x87 unit.

use std::path::Path;

/// The program's source.
const X87: &str = "src/processor/x87.c";

fn main() {
    if sources::at_hand().is_none() {
        println!("cargo::warning=r2SMT sources not at hand: the stored answers are the test");
    }
    println!("cargo::rerun-if-changed={X87}");
    if emulator::is_needed() {
        // What is asked of it where it was not made says so.
        let _ = emulator::made("x87", &[Path::new(X87)]);
    }
}
