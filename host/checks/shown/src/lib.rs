//! What the tools show, of the tour and of the cases: see the tests.
//!
//! A case is a text in `cases/` and, beside it, what is shown of it. The
//! command of this crate writes the shown texts anew; they are then read
//! line by line against the code before they are stored.

use std::fs;
use std::io;
use std::path::PathBuf;

use program::Program;
use x87rec::{Options, Take, hexadecimal, translate};
use x87show::show;

/// A text, the words behind `x87rec`, and where the shown text is stored.
pub struct Case {
    pub text: &'static str,
    pub words: &'static str,
    pub shown: &'static str,
}

const fn case(text: &'static str, words: &'static str, shown: &'static str) -> Case {
    Case { text, words, shown }
}

/// All cases.
pub const CASES: [Case; 22] = [
    case("truncation.objdump", "--path", "truncation"),
    case("integer-flags.objdump", "--path", "integer-flags"),
    case("loop.objdump", "--path", "loop"),
    case("loop.objdump", "--path --take 2f", "loop-again"),
    case("tail-call.objdump", "--path", "tail-call"),
    case("moving-esp.objdump", "--path", "moving-esp"),
    case("returned.objdump", "--path", "returned"),
    case("returned.objdump", "", "returned-whole"),
    case("floor.objdump", "--path --function shared", "floor"),
    case("floor.objdump", "--path --function counted", "counted"),
    case(
        "externals.objdump",
        "--path --function mixed",
        "externals-mixed",
    ),
    case("externals.llvm", "", "externals-llvm"),
    case("switch.gdb", "", "switch-gdb"),
    case("switch.objdump", "--path --function chosen", "switch"),
    case("stdcall.objdump", "--path --function outer", "stdcall"),
    case(
        "stdcall.objdump",
        "--path --function caller",
        "stdcall-told",
    ),
    case("framed.objdump", "--path", "framed"),
    case("wide.objdump", "--path", "wide"),
    case(
        "control-words.objdump",
        "--path --function to_int",
        "old-truncation",
    ),
    case(
        "control-words.objdump",
        "--path --function windows",
        "windows",
    ),
    case("control-words.objdump", "", "control-words"),
    case("declined.lines", "--path", "declined"),
];

/// Where a file of the cases is.
fn file(name: &str) -> PathBuf {
    let folder = PathBuf::from(env!("CARGO_MANIFEST_DIR")).join("cases");
    folder.join(name)
}

impl Case {
    /// Where the shown text is stored.
    #[must_use]
    pub fn stored(&self) -> PathBuf {
        file(&format!("{}.shown", self.shown))
    }

    /// What is shown of the case.
    ///
    /// # Errors
    /// Where a file is missing or a step fails.
    pub fn told(&self, program: &Program) -> io::Result<String> {
        told(
            &fs::read_to_string(file(self.text))?,
            &options(self.words)?,
            program,
        )
    }
}

/// What is shown of a text.
///
/// # Errors
/// Where a step fails.
pub fn told(text: &str, options: &Options, program: &Program) -> io::Result<String> {
    let records = translate(text, options).map_err(io::Error::other)?;
    let listing = program.listing(&records.bytes())?;
    let listing = String::from_utf8(listing).map_err(io::Error::other)?;
    let shown = show(&listing, Some(&records.notes)).map_err(io::Error::other)?;
    Ok(shown.text)
}

/// The options that the words behind `x87rec` ask for.
///
/// # Errors
/// The first word that is not known here.
pub fn options(words: &str) -> io::Result<Options> {
    let mut options = Options::default();
    let mut words = words.split_whitespace();
    while let Some(word) = words.next() {
        match (word, words.clone().next()) {
            ("--path", _) => drop(options.path.get_or_insert_default()),
            ("--function", Some(name)) => options.function = Some(name.to_owned()),
            ("--take", Some(text)) => {
                let address = hexadecimal(text).ok_or_else(|| io::Error::other(text.to_owned()))?;
                let decisions = None;
                let takes = options.path.get_or_insert_default();
                takes.push(Take { address, decisions });
            }
            _ => return Err(io::Error::other(word.to_owned())),
        }
        if word != "--path" {
            words.next();
        }
    }
    Ok(options)
}
