//! The command `x87show`: see [`HELP`].

use std::ffi::OsString;
use std::io::{self, Read, Write};
use std::process::ExitCode;
use std::{env, fs};

use notes::Notes;
use x87show::{Shown, show};

/// What `--help` prints.
const HELP: &str = "\
x87show: a listing of x87lift as formulas

    x87show [--names FILE] < LISTING

    --names FILE         what x87rec --names wrote: with it each line has its
                         instruction's address, and it is said who wrote the
                         flags, what is assumed and how the code ends
    --help, --version

The status is 0 if all was shown, 1 if x87lift refused an instruction, a
step before failed or a file cannot be read or written, 2 for a wrong
argument.
";

fn main() -> ExitCode {
    let words: Vec<OsString> = env::args_os().skip(1).collect();
    let words: Vec<&str> = words
        .iter()
        .map(|word| word.to_str().unwrap_or(""))
        .collect();
    let shown = match words[..] {
        [] => run(None),
        ["--names", file] => run(Some(file)),
        ["--help"] => Ok(whole(HELP.to_owned())),
        ["--version"] => Ok(whole(format!("x87show {}\n", env!("CARGO_PKG_VERSION")))),
        _ => {
            say("wrong arguments; x87show --help says more");
            return ExitCode::from(2);
        }
    };
    let refused = shown.as_ref().is_ok_and(|shown| shown.refused);
    match shown.and_then(|shown| write(&shown.text)) {
        Ok(()) if !refused => ExitCode::SUCCESS,
        Ok(()) => ExitCode::FAILURE,
        Err(why) => {
            say(&why);
            ExitCode::FAILURE
        }
    }
}

/// Say something on standard error; where that cannot be, the status
/// tells.
fn say(why: &str) {
    let _ = writeln!(io::stderr(), "x87show: {why}");
}

/// A text that is not cut short by a refusal.
fn whole(text: String) -> Shown {
    let refused = false;
    Shown { text, refused }
}

fn run(names: Option<&str>) -> Result<Shown, String> {
    let mut listing = String::new();
    let read = io::stdin().read_to_string(&mut listing);
    read.map_err(|e| format!("standard input: {e}"))?;
    // In a pipe the file is whole only when the listing has ended.
    let notes = match names {
        Some(file) => Some(notes(file).map_err(|e| format!("{file}: {e}"))?),
        None => None,
    };
    show(&listing, notes.as_ref()).map_err(|wrong| wrong.to_string())
}

fn notes(file: &str) -> Result<Notes, String> {
    let text = fs::read_to_string(file).map_err(|e| e.to_string())?;
    text.parse()
        .map_err(|wrong: notes::Wrong| wrong.to_string())
}

fn write(text: &str) -> Result<(), String> {
    let mut out = io::stdout();
    let written = out.write_all(text.as_bytes()).and_then(|()| out.flush());
    written.map_err(|e| format!("standard output: {e}"))
}
