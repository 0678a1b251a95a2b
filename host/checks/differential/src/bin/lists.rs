//! `lists FOLDER`: writes the ready-made lists of each work into a file of
//! the folder, for the program in `counted/values.c`, and prints its name.
//!
//! A file has the words of each of its lists, eight bytes each, low byte
//! first: how many nodes it has, their rows, what is given.

use std::fs;
use std::path::Path;
use std::process::ExitCode;

use differential::lists::{Ready, works};

fn main() -> ExitCode {
    let Some(folder) = std::env::args_os().nth(1) else {
        eprintln!("usage: lists FOLDER");
        return ExitCode::FAILURE;
    };
    if cfg!(no_oracle) {
        eprintln!("{}", differential::NO_ORACLE);
    }
    for work in works() {
        let words = work.lists();
        let words = words.iter().flat_map(Ready::words);
        let bytes: Vec<u8> = words.flat_map(u64::to_le_bytes).collect();
        let path = Path::new(&folder).join(&work.name);
        if let Err(why) = fs::write(&path, bytes) {
            eprintln!("{}: {why}", path.display());
            return ExitCode::FAILURE;
        }
        println!("{}", work.name);
    }
    ExitCode::SUCCESS
}
