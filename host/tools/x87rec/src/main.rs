//! The command `x87rec`: see [`HELP`].

use std::io::{self, Read, Write};
use std::process::ExitCode;
use std::{env, fs};

use notes::Notes;
use x87rec::{Options, Take, hexadecimal, translate};

/// What `--help` prints.
const HELP: &str = "\
x87rec: x87 code as records for x87lift

    x87rec [OPTION].. < DISASSEMBLY > RECORDS

Reads the text of `objdump -d -M intel` (or -dr, of an object file), of
`llvm-objdump -d -M intel`, of gdb's `disassemble`, or lines `ADDRESS NAME
OPERANDS`, and writes records.

    --names FILE         write what the records stand for, for x87show
    --function NAME      take one function, by its symbol or by 0xADDRESS
    --path               follow one way from the first line on
    --take ADDRESS       on it, take the conditional jump at ADDRESS
    --take ADDRESS=yyn   decide each time that the way comes to it
    --every              make a record of every instruction
    --assume-reset       take every rounding to be to nearest even, whatever
                         the code loads into the control word
    --help, --version

What was passed over is said on standard error. The status is 0 if all was
written, 1 if the text or a file is wrong, 2 for a wrong argument.
";

/// What is asked for.
enum Asked {
    Print(String),
    Run(Options, Option<String>),
}

fn main() -> ExitCode {
    let words = env::args_os()
        .skip(1)
        .map(|word| word.to_string_lossy().into_owned());
    let (options, names) = match asked(words) {
        Ok(Asked::Print(text)) => return ended(write(text.as_bytes())),
        Ok(Asked::Run(options, names)) => (options, names),
        Err(why) => {
            say(&format!("{why}; x87rec --help says more"));
            return ExitCode::from(2);
        }
    };
    let result = run(&options, names.as_deref());
    if let (Err(why), Some(file)) = (&result, &names) {
        // Notes of an earlier run must not stay beside no records.
        let _ = fs::write(file, Notes::failed(why).to_string());
    }
    ended(result)
}

/// Say something on standard error; where that cannot be, the status
/// tells.
fn say(words: &str) {
    let _ = writeln!(io::stderr(), "x87rec: {words}");
}

fn ended(result: Result<(), String>) -> ExitCode {
    match result {
        Ok(()) => ExitCode::SUCCESS,
        Err(why) => {
            say(&why);
            ExitCode::FAILURE
        }
    }
}

/// What the arguments ask for.
fn asked(mut words: impl Iterator<Item = String>) -> Result<Asked, String> {
    let mut options = Options::default();
    let mut names = None;
    while let Some(word) = words.next() {
        let mut value = || words.next().ok_or_else(|| format!("{word} wants a value"));
        match word.as_str() {
            "--help" => return Ok(Asked::Print(HELP.to_owned())),
            "--version" => return Ok(Asked::Print(version())),
            "--every" => options.every = true,
            "--assume-reset" => options.assume_reset = true,
            "--function" => options.function = Some(value()?),
            "--path" => drop(options.path.get_or_insert_default()),
            "--take" => options.path.get_or_insert_default().push(take(&value()?)?),
            "--names" => names = Some(value()?),
            _ => return Err(format!("there is no option {word}")),
        }
    }
    Ok(Asked::Run(options, names))
}

fn version() -> String {
    format!("x87rec {}\n", env!("CARGO_PKG_VERSION"))
}

/// A jump that is taken, `ADDRESS` or `ADDRESS=yyn`.
fn take(text: &str) -> Result<Take, String> {
    let (address, decisions) = match text.split_once('=') {
        Some((address, decisions)) => (address, Some(decisions)),
        None => (text, None),
    };
    let wrong = || format!("--take wants an address, or one with =yyn, not {text}");
    let decision = |letter| match letter {
        'y' => Ok(true),
        'n' => Ok(false),
        _ => Err(wrong()),
    };
    Ok(Take {
        address: hexadecimal(address).ok_or_else(wrong)?,
        decisions: decisions
            .map(|d| d.chars().map(decision).collect())
            .transpose()?,
    })
}

fn run(options: &Options, names: Option<&str>) -> Result<(), String> {
    let mut text = String::new();
    let read = io::stdin().read_to_string(&mut text);
    read.map_err(|e| format!("standard input: {e}"))?;
    let translated = translate(&text, options).map_err(|wrong| wrong.to_string())?;
    if let Some(file) = names {
        fs::write(file, translated.notes.to_string()).map_err(|e| format!("{file}: {e}"))?;
    }
    write(&translated.bytes())?;
    say(&translated.to_string());
    Ok(())
}

fn write(bytes: &[u8]) -> Result<(), String> {
    let mut out = io::stdout();
    let written = out.write_all(bytes).and_then(|()| out.flush());
    written.map_err(|e| format!("standard output: {e}"))
}
