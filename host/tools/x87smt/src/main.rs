//! The command `x87smt`: see [`HELP`].

use std::env;
use std::fs;
use std::io::{self, Read, Write};
use std::process::ExitCode;

use x87smt::{Root, formula, listing};

/// What `--help` prints.
const HELP: &str = "\
x87smt: one formula of x87 code as SMT-LIB text

    x87smt --place N < RECORDS > TEXT
    x87smt --statement N < RECORDS > TEXT
    x87smt --node N < RECORDS > TEXT
    x87smt --read [FILE] < TEXT

Reads the records that x87lift reads, as x87rec writes them, lifts them and
writes what one node needs as declarations, definitions and assertions.

    --place N            what stands at place N of the stack behind the last
                         record; place 0 is the top
    --statement N        what statement N stores or sets, as x87lift numbers
                         the statements
    --node N             node N, as x87lift numbers the nodes
    --read [FILE]        read such a text, from FILE or from standard input, and
                         list its nodes as x87lift does, numbered from 0, the
                         root last; where it is none, say the line and the byte
                         from which on no text can follow
    --help, --version

The text has no other command and no comment. A question to a solver goes
behind it, for example (check-sat); cvc5 wants (set-logic ALL) before it, and
--fp-exp. What a reader has to know is said on standard error: what each
constant stands for, what was declined, and what is left open. The status is 0
if the text was written or read, 1 if the records, the node, the text or a file
are wrong, 2 for a wrong argument.
";

/// What is asked for.
enum Asked {
    Print(String),
    Text(Root),
    /// The nodes of a text in a file, or on standard input.
    Nodes(Option<String>),
}

fn main() -> ExitCode {
    let words = env::args_os().skip(1);
    let words: Vec<String> = words
        .map(|word| word.to_string_lossy().into_owned())
        .collect();
    let words: Vec<&str> = words.iter().map(String::as_str).collect();
    let written = match asked(&words) {
        Some(Asked::Print(text)) => write(&text),
        Some(Asked::Text(root)) => run(root),
        Some(Asked::Nodes(file)) => read(file.as_deref()),
        None => {
            say("wrong arguments; x87smt --help says more");
            return ExitCode::from(2);
        }
    };
    match written {
        Ok(()) => ExitCode::SUCCESS,
        Err(why) => {
            why.lines().for_each(say);
            ExitCode::FAILURE
        }
    }
}

/// What the arguments ask for, if they are right.
fn asked(words: &[&str]) -> Option<Asked> {
    let root = match words {
        ["--help"] => return Some(Asked::Print(HELP.to_owned())),
        ["--version"] => {
            let version = format!("x87smt {}\n", env!("CARGO_PKG_VERSION"));
            return Some(Asked::Print(version));
        }
        ["--read"] => return Some(Asked::Nodes(None)),
        ["--read", file] => return Some(Asked::Nodes(Some((*file).to_owned()))),
        ["--place", number] => Root::Place(number.parse().ok()?),
        ["--statement", number] => Root::Statement(number.parse().ok()?),
        ["--node", number] => Root::Node(number.parse().ok()?),
        _ => return None,
    };
    Some(Asked::Text(root))
}

/// Say something on standard error; where that cannot be, the status tells.
fn say(why: &str) {
    let _ = writeln!(io::stderr(), "x87smt: {why}");
}

/// What is called standard input.
const INPUT: &str = "standard input";

fn input() -> Result<Vec<u8>, String> {
    let mut bytes = Vec::new();
    let read = io::stdin().read_to_end(&mut bytes);
    read.map_err(|e| format!("{INPUT}: {e}"))?;
    Ok(bytes)
}

fn read(file: Option<&str>) -> Result<(), String> {
    let text = match file {
        Some(name) => fs::read(name).map_err(|e| format!("{name}: {e}"))?,
        None => input()?,
    };
    let listing = listing(file.unwrap_or(INPUT), &text);
    write(&listing.map_err(|wrong| wrong.to_string())?)
}

fn run(root: Root) -> Result<(), String> {
    let records = input()?;
    let formula = formula(&records, root).map_err(|wrong| wrong.to_string())?;
    write(&formula.text)?;
    formula.words.iter().for_each(|words| say(words));
    Ok(())
}

fn write(text: &str) -> Result<(), String> {
    let mut out = io::stdout();
    let written = out.write_all(text.as_bytes()).and_then(|()| out.flush());
    written.map_err(|e| format!("standard output: {e}"))
}
