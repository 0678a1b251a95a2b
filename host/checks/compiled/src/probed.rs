//! Functions in assembly whose text tells what `x87rec` believes.
//!
//! A function takes its registers and flags from its arguments and stores
//! the control word at many places of its stack. A probe is x87 code that
//! names all registers, flags and places: the text goes through it, and the
//! machine jumps over it by one of two jumps of which one is always taken.

use std::collections::HashMap;
use std::fmt;

use differential::rng::Rng;
use notes::Notes;
use x87rec::{Options, Take, translate};

use crate::beside::Beside;
use crate::code::Code;
use crate::run::{ARENA, ARGUMENTS, Run};
use crate::way::{begun, visits};

/// Where control words are stored, from the stack pointer behind the first
/// line on.
pub const WORDS: [i32; 16] = [
    -0x8, -0x6, -0x4, -0x2, 0x0, 0x2, 0x4, 0x6, 0x8, 0xa, 0xc, 0xe, 0x10, 0x12, 0x14, 0x16,
];

/// Some of them become others: one that rounds toward zero, one of 53 bits,
/// and one that is not told.
const CHANGED: [&str; 3] = [
    "or BYTE PTR [esp+0x7],0xc",
    "mov WORD PTR [esp-0x4],0x27f",
    "xor BYTE PTR [esp+0xd],0x4",
];

/// The flags come from the first argument: OF from its lowest byte, the
/// others from the next. Nothing behind that writes them.
const ENTRY: [&str; 13] = [
    "mov eax,[esp+0x64]",
    "add al,0x7f",
    "sahf",
    "mov eax,[esp+0x68]",
    "mov ecx,[esp+0x6c]",
    "mov edx,[esp+0x70]",
    "mov ebx,[esp+0x74]",
    "mov ebp,[esp+0x78]",
    "mov esi,[esp+0x7c]",
    "mov edi,[esp+0x80]",
    "fld QWORD PTR [esp+0x84]",
    "fld DWORD PTR [esp+0x8c]",
    "fldpi",
];

/// The registers that a probe names.
pub const REGISTERS: [&str; 8] = ["eax", "ecx", "edx", "ebx", "esp", "ebp", "esi", "edi"];

/// Moves that read CF, PF and ZF.
const READERS: [&str; 3] = ["fcmovb", "fcmovu", "fcmove"];

/// Where pointers point: so many places of the arena, from this one on; or
/// else to where control words are, which the text must allow for.
const DATA: usize = 128;
const PLACES: usize = 16;
const INTO_STACK: [usize; 3] = [784, 800, 816];

/// A memory operand, such as `WORD PTR [esp-0x4]`.
#[must_use]
pub fn operand(size: &str, base: &str, offset: i32) -> String {
    let sign = if offset < 0 { '-' } else { '+' };
    format!("{size} PTR [{base}{sign}{:#x}]", offset.unsigned_abs())
}

/// A function: its lines, each an instruction or a label.
#[derive(Debug, Clone)]
pub struct Function {
    pub name: String,
    lines: Vec<String>,
}

impl Function {
    /// A function that has entered.
    #[must_use]
    pub fn entered(name: String) -> Self {
        let words = WORDS.map(|place| format!("fnstcw {}", operand("WORD", "esp", place)));
        let mut lines = vec!["sub esp,0x60".to_owned()];
        lines.extend(words);
        lines.extend(CHANGED.iter().chain(&ENTRY).map(|&line| line.to_owned()));
        Self { name, lines }
    }

    /// Add an instruction; a jump to `9f` is one to the next.
    pub fn line(&mut self, line: impl Into<String>) {
        let line = line.into();
        let label = line.ends_with("9f").then(|| "9:".to_owned());
        self.lines.push(line);
        self.lines.extend(label);
    }

    /// Add a label.
    pub fn label(&mut self, label: &str) {
        self.lines.push(format!("{label}:"));
    }

    /// How many instructions there are.
    #[must_use]
    pub fn instructions(&self) -> usize {
        let code = self.lines.iter().filter(|line| !line.ends_with(':'));
        code.count()
    }

    /// Add a probe of the flags and registers.
    pub fn probe(&mut self) {
        self.skip(Vec::new());
    }

    /// Add a probe of flags, registers and control words, and the end.
    pub fn end(&mut self) {
        let places = ["esp", "ebp"].map(|base| WORDS.map(|place| operand("WORD", base, place)));
        let words = places.as_flattened().iter();
        self.skip(words.map(|place| format!("fldcw {place}")).collect());
        self.line("cld");
        self.line("jmp back");
    }

    /// Add a probe, with some lines more.
    fn skip(&mut self, more: Vec<String>) {
        self.lines.extend(["jo 8f", "jno 8f"].map(str::to_owned));
        let flags = READERS.map(|name| format!("{name} st,st(1)"));
        let registers = REGISTERS.map(|name| format!("fld {}", operand("DWORD", name, 0)));
        self.lines.extend(flags);
        self.lines.extend(registers);
        self.lines.extend(more);
        self.lines.push("8:".to_owned());
    }
}

impl fmt::Display for Function {
    fn fmt(&self, f: &mut fmt::Formatter<'_>) -> fmt::Result {
        let name = &self.name;
        write!(f, ".globl {name}\n{name}:\n{}\n", self.lines.join("\n"))
    }
}

/// The assembly of some functions.
#[must_use]
pub fn assembly(functions: &[Function]) -> String {
    let functions: String = functions.iter().map(Function::to_string).collect();
    format!(".intel_syntax noprefix\n.text\n{functions}.section .note.GNU-stack,\"\",@progbits\n")
}

/// The texts of the functions in a disassembly, by their names.
#[must_use]
pub fn parts(disassembly: &str) -> HashMap<&str, &str> {
    let parts = disassembly.split("\n\n");
    let named = parts.filter_map(|part| {
        let head = part.lines().next()?.strip_suffix(">:")?;
        let (_, name) = head.split_once('<')?;
        Some((name, part))
    });
    named.collect()
}

/// What is believed of a function.
#[derive(Debug, Clone)]
pub struct Believed {
    /// Of the way on which some jumps are taken.
    pub way: Notes,
    /// Of the whole text.
    pub whole: Notes,
}

impl Believed {
    /// What is believed of a text, and of the way on which these jumps are
    /// taken.
    ///
    /// # Errors
    /// Where the text is not understood.
    pub fn of(text: &str, taken: &[u32]) -> Result<Self, String> {
        let takes = taken.iter().map(|&address| Take {
            address: address.into(),
            decisions: None,
        });
        let options = Options {
            path: Some(takes.collect()),
            ..Options::default()
        };
        let notes = |options| translate(text, options).map(|translated| translated.notes);
        let notes = |options| notes(options).map_err(|wrong| wrong.to_string());
        Ok(Self {
            way: notes(&options)?,
            whole: notes(&Options::default())?,
        })
    }
}

/// A run of a function.
#[derive(Debug, Clone)]
pub struct Seen<'a> {
    run: &'a Run,
    code: &'a Code,
    visits: Vec<usize>,
}

impl<'a> Seen<'a> {
    #[must_use]
    pub fn new(run: &'a Run, code: &'a Code) -> Self {
        let visits = begun(run, &visits(run, code));
        Self { run, code, visits }
    }

    /// Whether the run came to an instruction again.
    #[must_use]
    pub fn has_turns(&self) -> bool {
        let ip = |at: usize| self.run.steps[at].ip;
        !self.visits.is_sorted_by_key(|&at| ip(at))
    }

    #[must_use]
    pub fn beside(&self) -> Beside<'_> {
        Beside {
            run: self.run,
            parts: &[],
            code: self.code,
            visits: &self.visits,
        }
    }
}

/// The arena before a run, where it stands at this address.
#[must_use]
pub fn arena(address: u32, rng: &mut Rng) -> [u8; ARENA] {
    let few = rng.one_in(2);
    let mut arena = [0; ARENA].map(|_: u8| byte(few, rng));
    let into_stack = rng.one_in(3);
    let mut arguments = [(); 4].map(|()| number(rng)).to_vec();
    arguments.extend([(); 4].map(|()| pointer(address, into_stack, rng)));
    for (at, word) in arguments.iter().enumerate() {
        let from = ARGUMENTS + 4 * at;
        arena[from..from + 4].copy_from_slice(&word.to_le_bytes());
    }
    arena
}

/// A byte; one of a few, where many are to be equal.
fn byte(few: bool, rng: &mut Rng) -> u8 {
    if few {
        return *rng.pick(&[0, 1, 0xff]);
    }
    rng.byte()
}

fn number(rng: &mut Rng) -> u32 {
    let word = rng.word();
    let bytes = u32::try_from(word & 0xffff_ffff).unwrap_or_default();
    match rng.below(6) {
        0 => bytes & 0xff,
        1 => *rng.pick(&[
            0,
            1,
            2,
            0xffff_ffff,
            0x8000_0000,
            0x7fff_ffff,
            0xffff,
            0x8080,
        ]),
        _ => bytes,
    }
}

fn pointer(address: u32, into_stack: bool, rng: &mut Rng) -> u32 {
    let place = if into_stack {
        *rng.pick(&INTO_STACK)
    } else {
        DATA + 16 * rng.below(PLACES)
    };
    address + u32::try_from(place).expect("a place of the arena")
}
