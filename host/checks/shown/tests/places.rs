//! Random code is run by a small machine, and each place that is shown is
//! the address that the run loads from.

use std::collections::HashMap;
use std::io::Write as _;

use program::{MISSING, Program};
use shown::told;
use x87rec::{Options, Take};

const NAMES: [&str; 8] = ["eax", "ebx", "ecx", "edx", "esi", "edi", "ebp", "esp"];
const ESP: usize = 7;

/// The address of the first line, and from one line to the next.
const FIRST: u64 = 0x10;
const STEP: u64 = 4;

/// A run ends behind so many lines.
const MOST_STEPS: usize = 100;

type Registers = [u32; 8];

/// Random numbers, from a seed.
struct Random(u64);

impl Random {
    fn next(&mut self) -> u64 {
        self.0 ^= self.0 << 13;
        self.0 ^= self.0 >> 7;
        self.0 ^= self.0 << 17;
        self.0
    }

    fn below(&mut self, end: usize) -> usize {
        usize::try_from(self.next() % end as u64).expect("it is below a usize")
    }
}

/// A register and what is added to it.
#[derive(Clone, Copy)]
struct Sum(usize, i32);

impl Sum {
    fn random(random: &mut Random) -> Self {
        let base = [ESP, ESP, 6, 0, 1, 4][random.below(6)];
        let offsets = [-8, -4, 0, 0, 4, 8, 12];
        Self(base, offsets[random.below(offsets.len())])
    }

    fn text(self) -> String {
        match self.1 {
            0 => format!("[{}]", NAMES[self.0]),
            more if more < 0 => format!("[{}-{:#x}]", NAMES[self.0], -more),
            more => format!("[{}+{more:#x}]", NAMES[self.0]),
        }
    }

    fn address(self, registers: &Registers) -> u32 {
        registers[self.0].wrapping_add_signed(self.1)
    }
}

#[derive(Clone, Copy)]
enum Line {
    Fld(Sum),
    Drop,
    Move(usize, usize),
    Load(usize, Sum),
    Store(Sum, usize),
    Lea(usize, Sum),
    Add(usize, i32),
    Push(usize),
    Pop(usize),
    Jump(u64),
    Branch(u64),
    Ret,
}

impl Line {
    fn random(lines: usize, random: &mut Random) -> Self {
        let (one, other) = (random.below(7), random.below(8));
        let target = FIRST + STEP * random.below(lines) as u64;
        match random.below(14) {
            0..4 => Self::Fld(Sum::random(random)),
            4 => Self::Drop,
            5 => Self::Move(one, other),
            6 => Self::Load(one, Sum::random(random)),
            7 => Self::Store(Sum::random(random), other),
            8 => Self::Lea(other, Sum::random(random)),
            9 => Self::Add(other, [8, -8][random.below(2)]),
            10 => Self::Push(other),
            11 => Self::Pop(one),
            12 if random.below(3) == 0 => Self::Jump(target),
            _ => Self::Branch(target),
        }
    }

    fn text(self) -> String {
        let name = |register: usize| NAMES[register];
        match self {
            Self::Fld(sum) => format!("fld QWORD PTR {}", sum.text()),
            Self::Drop => "fstp st(0)".to_owned(),
            Self::Move(to, from) => format!("mov {},{}", name(to), name(from)),
            Self::Load(to, sum) => format!("mov {},DWORD PTR {}", name(to), sum.text()),
            Self::Store(sum, from) => format!("mov DWORD PTR {},{}", sum.text(), name(from)),
            Self::Lea(to, sum) => format!("lea {},{}", name(to), sum.text()),
            Self::Add(to, more) if more < 0 => format!("sub {},{:#x}", name(to), -more),
            Self::Add(to, more) => format!("add {},{more:#x}", name(to)),
            Self::Push(from) => format!("push {}", name(from)),
            Self::Pop(to) => format!("pop {}", name(to)),
            Self::Jump(target) => format!("jmp {target:x}"),
            Self::Branch(target) => format!("jne {target:x}"),
            Self::Ret => "ret".to_owned(),
        }
    }
}

/// A run of some code.
struct Run {
    /// The bytes that a push moves the stack pointer by.
    word: u32,
    registers: Registers,
    entry: Registers,
    memory: HashMap<u32, u32>,
    /// The registers behind each line, at each of its turns, and as they
    /// were on coming there last.
    behind: HashMap<u64, Vec<Registers>>,
    coming: HashMap<u64, Registers>,
    /// What was decided at each branch.
    decided: HashMap<u64, Vec<bool>>,
    /// How often each line was come to.
    turns: HashMap<u64, usize>,
}

impl Run {
    fn new(word: u32, random: &mut Random) -> Self {
        let value = |at: u32| 0x1000_0000 * (at + 1) + 4 * at;
        let mut registers = [0, 1, 2, 3, 4, 5, 6, 7].map(value);
        registers[ESP] += 4 * u32::try_from(random.below(1000)).expect("it is small");
        Self {
            word,
            registers,
            entry: registers,
            memory: HashMap::new(),
            behind: HashMap::new(),
            coming: HashMap::new(),
            decided: HashMap::new(),
            turns: HashMap::new(),
        }
    }

    /// What a place of memory holds; at first something of its own.
    fn read(&mut self, address: u32) -> u32 {
        let first = address.wrapping_mul(0x9e37_79b1) & !3;
        *self.memory.entry(address).or_insert(first)
    }

    /// Do what a line does, but for where it goes.
    fn step(&mut self, line: Line) {
        let registers = self.registers;
        match line {
            Line::Move(to, from) => self.registers[to] = registers[from],
            Line::Load(to, sum) => self.registers[to] = self.read(sum.address(&registers)),
            Line::Store(sum, from) => {
                self.memory.insert(sum.address(&registers), registers[from]);
            }
            Line::Lea(to, sum) => self.registers[to] = sum.address(&registers),
            Line::Add(to, more) => self.registers[to] = registers[to].wrapping_add_signed(more),
            Line::Push(from) => {
                self.registers[ESP] = registers[ESP].wrapping_sub(self.word);
                self.memory.insert(self.registers[ESP], registers[from]);
            }
            Line::Pop(to) => {
                self.registers[ESP] = registers[ESP].wrapping_add(4);
                self.registers[to] = self.read(registers[ESP]);
            }
            _ => {}
        }
    }

    /// The address of a place that is shown, such as `[eax@1c#2+0x8]`.
    fn address(&self, place: &str, is_way: bool) -> u32 {
        let inner = place.trim_start_matches('[').trim_end_matches(']');
        let cut = inner.find(['+', '-']).unwrap_or(inner.len());
        let (base, more) = inner.split_at(cut);
        let digits = more.get(3..).unwrap_or("0");
        let number = u32::from_str_radix(digits, 16).expect("a number");
        let base = self.base(base, is_way);
        if more.starts_with('-') {
            return base.wrapping_sub(number);
        }
        base.wrapping_add(number)
    }

    /// A register as it is now, or as its mark says.
    fn base(&self, text: &str, is_way: bool) -> u32 {
        let (name, mark) = text.split_once('@').unwrap_or((text, ""));
        if name == "esp0" {
            return self.entry[ESP];
        }
        let number = NAMES.iter().position(|own| *own == name);
        let number = number.unwrap_or_else(|| panic!("{text} is a register"));
        let (digits, turn) = mark.split_once('#').unwrap_or((mark, "1"));
        let digits = digits.trim_start_matches('@');
        let Ok(address) = u64::from_str_radix(digits, 16) else {
            return self.registers[number];
        };
        if mark.starts_with('@') {
            return self.coming[&address][number];
        }
        let turns = &self.behind[&address];
        let turn: usize = turn.parse().expect("a number");
        let at = if is_way { turn } else { turns.len() };
        turns[at - 1][number]
    }
}

/// Random code, with a return at its end.
fn code(random: &mut Random) -> Vec<Line> {
    let lines = 4 + random.below(24);
    let mut code: Vec<Line> = (1..lines).map(|_| Line::random(lines, random)).collect();
    code.push(Line::Ret);
    code
}

/// Run some code, and tell of each load: the line, its turn, the address
/// and the run as it is then.
fn run(
    mut run: Run,
    code: &[Line],
    random: &mut Random,
    mut load: impl FnMut(&Run, u64, usize, u32),
) -> Run {
    let mut at = 0;
    for _ in 0..MOST_STEPS {
        let address = FIRST + STEP * at as u64;
        let line = code[at];
        *run.turns.entry(address).or_default() += 1;
        run.coming.insert(address, run.registers);
        if let Line::Fld(sum) = line {
            load(
                &run,
                address,
                run.turns[&address],
                sum.address(&run.registers),
            );
        }
        run.step(line);
        run.behind.entry(address).or_default().push(run.registers);
        let index = |target: u64| usize::try_from((target - FIRST) / STEP).expect("a line");
        at = match line {
            Line::Ret => break,
            Line::Jump(target) => index(target),
            Line::Branch(target) => {
                let taken = random.below(2) == 0;
                run.decided.entry(address).or_default().push(taken);
                if taken { index(target) } else { at + 1 }
            }
            _ => at + 1,
        };
    }
    run
}

/// The places that are loaded, as they are shown, of each line.
fn shown_loads(text: &str) -> HashMap<u64, Vec<String>> {
    let mut all: HashMap<u64, Vec<String>> = HashMap::new();
    let lines = text.lines().filter_map(|line| line.split_once(": "));
    let loads = lines.filter(|(_, words)| words.ends_with(" bits"));
    for (address, words) in loads {
        let address = u64::from_str_radix(address.trim_start(), 16).expect("an address");
        let (_, place) = words.split_once(" := ").expect("a load");
        let (place, _) = place.split_once(',').expect("its width");
        all.entry(address).or_default().push(place.to_owned());
    }
    all
}

/// The text of some code.
fn written(code: &[Line]) -> String {
    let addresses = (0..).map(|at| FIRST + STEP * at);
    let line = |(at, line): (u64, &Line)| format!("{at:x} {}\n", line.text());
    addresses.zip(code).map(line).collect()
}

/// Run code, show it, and run it again beside what is shown: how many
/// loads were compared, or the first that differs.
fn compared(seed: u64, is_way: bool, word: u32, program: &Program) -> Result<usize, String> {
    let mut random = Random(seed);
    let code = code(&mut random);
    let mut again = Random(random.0);
    let begin = Run::new(word, &mut random);
    let first = run(begin, &code, &mut random, |_, _, _, _| {});
    let take = |(&address, decisions): (&u64, &Vec<bool>)| Take {
        address,
        decisions: Some(decisions.clone()),
    };
    let options = Options {
        path: is_way.then(|| first.decided.iter().map(take).collect()),
        ..Options::default()
    };
    let text = written(&code);
    let shown = told(&text, &options, program).map_err(|wrong| wrong.to_string())?;
    let places = shown_loads(&shown);
    let mut compared = Ok(0);
    let begin = Run::new(word, &mut again);
    run(begin, &code, &mut again, |run, at, turn, address| {
        let turn = if is_way { turn - 1 } else { 0 };
        let place = places.get(&at).and_then(|all| all.get(turn));
        if let (Some(place), Ok(count)) = (place, &mut compared) {
            *count += 1;
            if run.address(place, is_way) != address {
                compared = Err(format!("{at:x} {place} is {address:x}\n{text}\n{shown}"));
            }
        }
    });
    compared
}

/// The loads that are compared on ways and on whole texts, or the first
/// that differs.
fn all(word: u32, program: &Program) -> Result<[usize; 2], String> {
    let mut counts = [0, 0];
    for seed in (1..400).map(|seed| 0x9e37_79b9 * seed) {
        counts[0] += compared(seed, true, word, program)?;
        counts[1] += compared(seed, false, word, program)?;
    }
    Ok(counts)
}

#[test]
fn each_place_that_is_shown_is_where_a_run_loads_from() {
    let Some(program) = Program::at_hand() else {
        // A line that cannot be written is no reason to fail.
        let _ = writeln!(std::io::stderr(), "left out: {MISSING}");
        return;
    };
    let counts = all(4, &program).unwrap_or_else(|differs| panic!("{differs}"));
    assert!(counts.iter().all(|&count| count > 1_000), "{counts:?}");
    // A machine whose push is another one loads from elsewhere.
    assert!(all(8, &program).is_err());
}
