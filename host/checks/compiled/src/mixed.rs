//! Random code: integer instructions with x87 loads, stores, compares,
//! moves and control words between them, jumps over some, and turns.

use differential::rng::Rng;

use crate::integer::CONDITIONS;
use crate::probed::{Function, WORDS, operand};

/// How far the stack pointer goes from where the function put it.
const LOWEST: i32 = -0x40;
const HIGHEST: i32 = 0x10;

/// String instructions in a function: each moves a pointer by 12 bytes at
/// most.
const STRINGS: usize = 6;

/// Registers that are written; the others stay pointers.
const LONG: [&str; 3] = ["eax", "ecx", "edx"];
const SHORT: [&str; 3] = ["ax", "cx", "dx"];
const BYTES: [&str; 6] = ["al", "ah", "cl", "ch", "dl", "dh"];
const READ: [&str; 8] = ["eax", "ecx", "edx", "ebx", "esp", "ebp", "esi", "edi"];

/// Instructions with places for operands: `{a}` is a register of 32 bits,
/// `{w}` of 16, `{b}` of 8, `{s}` one that is read only; `{ma}`, `{mw}` and
/// `{mb}` are memory, `{ia}`, `{iw}` and `{ib}` constants, `{c}` is a
/// condition.
const INTEGER: [&str; 46] = [
    "mov {a},{s}",
    "mov {w},{w}",
    "mov {b},{b}",
    "mov {ma},{a}",
    "mov {mw},{w}",
    "mov {mb},{b}",
    "mov {a},{ma}",
    "mov {w},{mw}",
    "mov {b},{mb}",
    "mov {a},{ia}",
    "mov {mw},{iw}",
    "mov {mb},{ib}",
    "movzx {a},{b}",
    "movzx {a},{w}",
    "movzx {a},{mw}",
    "movzx {a},{mb}",
    "movsx {a},{mw}",
    "lea {a},[{a}+{a}*4+0x3]",
    "{o} {a},{s}",
    "{o} {a},{ia}",
    "{o} {w},{iw}",
    "{o} {b},{ib}",
    "{o} {b},{b}",
    "{o} {ma},{a}",
    "{o} {mw},{iw}",
    "{o} {mb},{ib}",
    "{o} {a},{ma}",
    "{u} {a}",
    "{u} {b}",
    "{u} {mw}",
    "{r} {a},cl",
    "{r} {w},{ib}",
    "{r} {mb},1",
    "xchg {a},{a}",
    "xchg {mw},{w}",
    "xadd {a},{a}",
    "xadd {ma},{a}",
    "cmpxchg {ma},{a}",
    "imul {a},{s}",
    "mul {a}",
    "set{c} {b}",
    "set{c} {mb}",
    "cmov{c} {a},{s}",
    "j{c} 9f",
    "{n}",
    "movd {ma},xmm0",
];

const OPERATIONS: [&str; 9] = [
    "adc", "add", "and", "cmp", "or", "sbb", "sub", "test", "xor",
];
const UNARY: [&str; 4] = ["dec", "inc", "neg", "not"];
const SHIFTS: [&str; 7] = ["rcl", "rcr", "rol", "ror", "sar", "shl", "shr"];
const ALONE: [&str; 10] = [
    "cdq",
    "cwde",
    "cbw",
    "clc",
    "cmc",
    "stc",
    "lahf",
    "sahf",
    "nop",
    "bswap edx",
];

/// x87 instructions.
const X87: [&str; 26] = [
    "fld DWORD PTR [ebx+0x8]",
    "fld QWORD PTR [esi]",
    "fild {mw}",
    "fild {ma}",
    "fld1",
    "fldz",
    "fxch st(2)",
    "fchs",
    "fadd st,st(1)",
    "fmul st(1),st",
    "fdivp st(1),st",
    "fsqrt",
    "frndint",
    "fcomi st,st(1)",
    "fucomi st,st(2)",
    "fcomi st,st(1)",
    "fcmovb st,st(1)",
    "fcmove st,st(2)",
    "fcmovnu st,st(1)",
    "fcmovbe st,st(1)",
    "fcom st(1)",
    "fnstsw ax",
    "fst {ma}",
    "fistp {mw}",
    "fistp {ma}",
    "fstp {ma}",
];

/// What compilers do with a control word.
const CONTROL: [&str; 12] = [
    "fnstcw {mw}",
    "fnstcw {mw}",
    "mov {w},{mw}",
    "movzx {a},{mw}",
    "or {w},0xc00",
    "or {b},0xc",
    "and {w},0xf3ff",
    "or {w},0x400",
    "mov ah,0xc",
    "mov {mw},{w}",
    "mov {mw},{w}",
    "mov {mw},0x27f",
];

/// Constants; some are those of control words.
const CONSTANTS: [i32; 8] = [0x0, 0x1, 0xc, 0x3f, 0xc00, 0xf3ff, 0x37f, 0xc7f];

/// A function under way.
struct Mixed<'a> {
    rng: &'a mut Rng,
    function: Function,
    /// Where the stack pointer is, from where the function put it.
    depth: i32,
    /// Where `ebp` is, where it is a frame.
    frame: Option<i32>,
    strings: usize,
    /// Whether `edi` counts turns, and points nowhere.
    turns: bool,
}

/// A function of random code, with turns or without.
#[must_use]
pub fn function(name: String, turns: bool, rng: &mut Rng) -> Function {
    let lines = rng.between(10, 40);
    let mut mixed = Mixed {
        rng,
        function: Function::entered(name),
        depth: 0,
        frame: None,
        strings: 0,
        turns,
    };
    for _ in 0..lines {
        mixed.more();
    }
    mixed.function.end();
    mixed.function
}

impl Mixed<'_> {
    fn more(&mut self) {
        match self.rng.below(21) {
            0..6 => self.one_of(&INTEGER),
            6..10 => self.one_of(&X87),
            10..13 => self.one_of(&CONTROL),
            13 => self.control(),
            14 => self.push(),
            15 => self.pop(),
            16 => self.pointer(),
            17 => self.frame(),
            18 => self.aside(),
            19 if self.turns && self.rng.one_in(2) => self.turn(),
            19 => self.branch(),
            _ => self.string(),
        }
    }

    fn line(&mut self, line: &str) {
        let line = self.filled(line);
        self.function.line(line);
    }

    fn one_of(&mut self, lines: &[&str]) {
        let line = *self.rng.pick(lines);
        self.line(line);
    }

    /// A line with its operands.
    fn filled(&mut self, line: &str) -> String {
        let mut text = line.to_owned();
        while let Some((before, rest)) = text.split_once('{') {
            let (what, behind) = rest.split_once('}').expect("it is closed");
            let word = self.word(what);
            text = format!("{before}{word}{behind}");
        }
        text
    }

    fn word(&mut self, what: &str) -> String {
        let words: &[&str] = match what {
            "a" => &LONG,
            "w" => &SHORT,
            "b" => &BYTES,
            "s" => &READ,
            "o" => &OPERATIONS,
            "u" => &UNARY,
            "r" => &SHIFTS,
            "n" => &ALONE,
            "c" => &CONDITIONS,
            "ma" => return self.memory("DWORD"),
            "mw" => return self.memory("WORD"),
            "mb" => return self.memory("BYTE"),
            _ => return self.constant(what),
        };
        (*self.rng.pick(words)).to_owned()
    }

    fn constant(&mut self, what: &str) -> String {
        let most = match what {
            "ib" => 0x7f,
            "iw" => 0x7fff,
            _ => i32::MAX,
        };
        format!("{:#x}", self.rng.pick(&CONSTANTS) & most)
    }

    /// Memory: mostly where a control word may be, or beside that.
    fn memory(&mut self, size: &str) -> String {
        if self.rng.one_in(6) {
            let bases = ["ebx", "esi", "edi"];
            let base = *self.rng.pick(&bases[..3 - usize::from(self.turns)]);
            return operand(size, base, 4);
        }
        let place = *self.rng.pick(&WORDS[..6]);
        let beside = i32::from(self.rng.one_in(4));
        self.place(size, place + beside)
    }

    /// A place of the stack, counted from a register that tells it.
    fn place(&mut self, size: &str, place: i32) -> String {
        match self.frame {
            Some(frame) if self.rng.one_in(2) => operand(size, "ebp", place - frame),
            _ => operand(size, "esp", place - self.depth),
        }
    }

    /// Load a word from where one may be, or do as compilers do.
    fn control(&mut self) {
        let place = *self.rng.pick(&WORDS[..6]);
        if self.rng.one_in(2) {
            return self.load(place);
        }
        let old = self.place("WORD", place);
        self.line(&format!("fnstcw {old}"));
        let old = self.place("WORD", place);
        self.line(&format!("movzx eax,{old}"));
        self.one_of(&["or ah,0xc", "or eax,0xc00", "mov ah,0xc", "and ah,0xf3"]);
        let new = self.place("WORD", place + 0x10);
        self.line(&format!("mov {new},ax"));
        self.load(place + 0x10);
        self.one_of(&INTEGER);
        self.load(place);
    }

    /// Load a control word; its masks are set, so that nothing traps.
    fn load(&mut self, place: i32) {
        let word = self.place("WORD", place);
        let byte = word.replace("WORD", "BYTE");
        self.line(&format!("or {byte},0x3f"));
        self.line(&format!("fldcw {word}"));
        self.one_of(&["frndint", "fistp {mw}", "fadd st,st(1)", "fst {ma}"]);
    }

    fn push(&mut self) {
        let (line, bytes) = *self.rng.pick(&[
            ("push {s}", 4),
            ("push {w}", 2),
            ("push {ma}", 4),
            ("push {mw}", 2),
            ("push 0x37f", 4),
        ]);
        if self.depth - bytes >= LOWEST {
            self.line(line);
            self.depth -= bytes;
        }
    }

    fn pop(&mut self) {
        let (line, bytes) = *self
            .rng
            .pick(&[("pop {a}", 4), ("pop {w}", 2), ("pop {ma}", 4)]);
        if self.depth + bytes > HIGHEST {
            return;
        }
        self.depth += bytes;
        // The place is counted from the stack pointer behind it.
        self.line(line);
    }

    /// Move the stack pointer.
    fn pointer(&mut self) {
        let depth = LOWEST + 4 * i32::try_from(self.rng.below(16)).unwrap_or_default();
        let bytes = depth - self.depth;
        let line = match self.rng.below(3) {
            0 => format!("add esp,{bytes}"),
            1 => format!("sub esp,{}", -bytes),
            _ => format!("lea esp,[esp+{bytes}]"),
        };
        self.line(&line);
        self.depth = depth;
    }

    /// Begin a frame, or leave it.
    fn frame(&mut self) {
        match self.frame.take() {
            Some(frame) => {
                self.line("leave");
                self.depth = frame + 4;
            }
            None if self.depth - 4 >= LOWEST => {
                self.line("push ebp");
                self.line("mov ebp,esp");
                self.depth -= 4;
                self.frame = Some(self.depth);
            }
            None => {}
        }
    }

    /// Hand out an address on the stack, and store there.
    fn aside(&mut self) {
        let place = *self.rng.pick(&WORDS);
        let address = self.place("", place).replace(" PTR ", "");
        let lines = *self.rng.pick(&[
            ["lea edx,{}", "mov WORD PTR [edx+0x2],cx", "nop"],
            ["lea edx,{}", "add dl,4", "mov cl,BYTE PTR [edx]"],
            ["lea ecx,{}", "and eax,3", "mov DWORD PTR [ecx+eax*2],edx"],
            ["and ecx,0x3f", "bts {ma},ecx", "fnstcw {mw}"],
            ["lea ecx,{}", "sub ecx,8", "and DWORD PTR [ecx],0xfffff3ff"],
            ["and ecx,3", "mov WORD PTR [esp+ecx*2],ax", "fnstcw {mw}"],
        ]);
        for line in lines {
            self.line(&line.replace("{}", &address));
        }
    }

    /// Jump over some lines, which may move the stack pointer.
    fn branch(&mut self) {
        let conditions = CONDITIONS.iter().filter(|name| !name.ends_with('o'));
        let conditions: Vec<&&str> = conditions.collect();
        let condition = **self.rng.pick(&conditions);
        self.line(&format!("j{condition} 7f"));
        self.some();
        self.function.label("7");
    }

    /// Turns, two or three.
    fn turn(&mut self) {
        let count = self.rng.between(2, 3);
        self.line(&format!("mov edi,{count}"));
        self.function.label("6");
        self.some();
        self.control();
        self.function.probe();
        self.some();
        self.line("dec edi");
        self.line("jne 6b");
    }

    /// Some lines.
    fn some(&mut self) {
        for _ in 0..self.rng.between(1, 4) {
            match self.rng.below(4) {
                0 => self.one_of(&INTEGER),
                1 => self.one_of(&X87),
                2 => self.one_of(&CONTROL),
                _ => self.one_of(&["push eax", "pop ecx", "lea esp,[esp-4]", "nop", "stc"]),
            }
        }
    }

    fn string(&mut self) {
        if self.strings == STRINGS || self.turns {
            return self.function.probe();
        }
        self.strings += 1;
        self.line("and ecx,3");
        let repeat = *self.rng.pick(&["", "rep ", "repnz "]);
        let name = *self.rng.pick(&[
            "movsb", "movsd", "stosb", "stosw", "lodsw", "scasb", "cmpsb",
        ]);
        self.line(&format!("{repeat}{name}"));
        if self.rng.one_in(4) {
            self.line("std");
        }
    }
}
