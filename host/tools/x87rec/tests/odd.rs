//! Odd texts: whatever they are, a translation ends, and what it says is
//! of lines that are there.

use std::collections::BTreeSet;

use notes::Notes;
use sleetgate::{Item, read_record};
use x87rec::{Options, Take, translate};

/// Real texts, which are damaged.
const TEXTS: [&str; 2] = [
    include_str!("../../tour/filter.objdump"),
    include_str!("../../tour/quaternion.objdump"),
];

/// Instructions for random code; `A` is an address, `M` memory, `N` a
/// number, `R` a register.
const INSTRUCTIONS: [&str; 48] = [
    "fld QWORD PTR M",
    "fld TBYTE PTR M",
    "fstp DWORD PTR M",
    "fistp WORD PTR M",
    "fadd st,st(1)",
    "fxch st(3)",
    "fcomi st,st(1)",
    "fcmovbe st,st(2)",
    "fnstsw ax",
    "fnstcw WORD PTR M",
    "fldcw WORD PTR M",
    "fldcw WORD PTR gs:N",
    "fnstenv M",
    "fninit",
    "fsin",
    "movd mm0,R",
    "or ah,0xc",
    "or BYTE PTR M,N",
    "and WORD PTR M,N",
    "xor R,N",
    "mov R,R",
    "mov R,M",
    "mov WORD PTR M,ax",
    "mov M,R",
    "movzx eax,WORD PTR M",
    "lea R,M",
    "lea esp,M",
    "add R,N",
    "sub esp,N",
    "add esp,N",
    "and esp,0xfffffff0",
    "mov ebp,esp",
    "mov esp,ebp",
    "push R",
    "push WORD PTR M",
    "pop R",
    "pop esp",
    "xchg R,esp",
    "leave",
    "enter N,0x0",
    "pusha",
    "call A",
    "call DWORD PTR M",
    "rep movs BYTE PTR es:[edi],BYTE PTR ds:[esi]",
    "jmp A",
    "jmp R",
    "jne A <f+0x2>",
    "loop A",
];

/// Numbers at the limits, as they are written.
const NUMBERS: [&str; 12] = [
    "0x0",
    "0x8",
    "-0x8",
    "0x7f",
    "0xffffffff",
    "0x80000000",
    "0x7fffffffffffffff",
    "0x8000000000000000",
    "0xffffffffffffffff",
    "0x10000000000000000",
    "99999999999999999999",
    "0x",
];

const REGISTERS: [&str; 10] = [
    "eax", "ebx", "esp", "ebp", "sp", "ah", "cl", "rsp", "r8d", "r15",
];

/// Words that are put into texts.
const WORDS: [&str; 22] = [
    "",
    " ",
    "\t",
    ",",
    "[",
    "]",
    "<",
    ">:",
    "#",
    "%",
    "ß",
    "\u{1d11e}",
    "\u{0}",
    "...",
    "rep",
    "ret",
    "R_386_32 x+0x7fffffffffffffff",
    "fld",
    "st(9)",
    "QWORD PTR",
    "jmp 0",
    "\r\n",
];

/// Random numbers, from a seed.
struct Random(u64);

impl Random {
    fn next(&mut self) -> u64 {
        self.0 ^= self.0 << 13;
        self.0 ^= self.0 >> 7;
        self.0 ^= self.0 << 17;
        self.0
    }

    fn below(&mut self, end: usize) -> usize {
        usize::try_from(self.next() % end.max(1) as u64).expect("it is below a usize")
    }

    fn of<'a>(&mut self, all: &[&'a str]) -> &'a str {
        all[self.below(all.len())]
    }
}

/// Delete, double, swap or replace some of the pieces of a text.
fn changed(pieces: &mut Vec<String>, random: &mut Random) {
    let (at, other) = (random.below(pieces.len()), random.below(pieces.len()));
    if pieces.is_empty() {
        return;
    }
    match random.below(6) {
        0 => drop(pieces.remove(at)),
        1 => pieces.insert(other, pieces[at].clone()),
        2 => pieces.swap(at, other),
        3 => random.of(&WORDS).clone_into(&mut pieces[at]),
        4 => random.of(&NUMBERS).clone_into(&mut pieces[at]),
        _ => pieces.truncate(at),
    }
}

/// A text with a change of its lines, of the words of a line or of its
/// letters.
fn damaged(text: &str, random: &mut Random) -> String {
    let mut lines: Vec<String> = text.lines().map(str::to_owned).collect();
    if random.below(3) == 0 {
        changed(&mut lines, random);
        return lines.join("\n");
    }
    let at = random.below(lines.len());
    if let Some(line) = lines.get_mut(at) {
        let (mut pieces, between): (Vec<String>, _) = if random.below(2) == 0 {
            (line.split(' ').map(str::to_owned).collect(), " ")
        } else {
            (line.chars().map(String::from).collect(), "")
        };
        changed(&mut pieces, random);
        *line = pieces.join(between);
    }
    lines.join("\n")
}

fn memory(random: &mut Random) -> String {
    let (register, number) = (random.of(&REGISTERS), random.of(&NUMBERS));
    match random.below(4) {
        0 => format!("[esp+{:#x}]", 2 * random.below(12)),
        1 => format!("[ebp-{:#x}]", 2 * random.below(12)),
        2 => format!("[{register}+{number}]"),
        _ => format!("ds:{number}"),
    }
}

/// An instruction with its operands put in.
fn instruction(addresses: usize, random: &mut Random) -> String {
    let pattern = random.of(&INSTRUCTIONS).to_owned();
    let (name, operands) = pattern.split_once(' ').unwrap_or((&pattern, ""));
    let put = |c: char| match c {
        'A' => format!("{:x}", 2 * random.below(addresses)),
        'M' => memory(random),
        'N' => random.of(&NUMBERS).to_owned(),
        'R' => random.of(&REGISTERS).to_owned(),
        c => c.to_string(),
    };
    // Sizes are no marks.
    let operands = operands.replace("PTR", "ptr").replace("WORD", "word");
    let operands: String = operands.chars().map(put).collect();
    format!("{name} {operands}")
}

/// Random code with jumps from anywhere to anywhere.
fn code(random: &mut Random) -> String {
    let lines = 1 + random.below(40);
    let line = |at: usize| {
        let text = format!("{:x} {}\n", 2 * at, instruction(lines + 2, random));
        match random.below(20) {
            0 => format!("{:08x} <f{at}>:\n{text}", 2 * at),
            1 => format!("\t...\n{text}"),
            2 => format!("{text}\t{:x}: R_386_32 x+{}\n", 2 * at, random.of(&NUMBERS)),
            3 => format!("{:x} ret 0x8\n", 2 * at),
            _ => text,
        }
    };
    (0..lines).map(line).collect()
}

/// What may be asked of a text.
fn asked(random: &mut Random) -> Options {
    let take = |random: &mut Random| Take {
        address: 2 * random.below(20) as u64,
        decisions: match random.below(3) {
            0 => None,
            count => Some((0..3 * count).map(|_| random.below(2) == 0).collect()),
        },
    };
    let path = match random.below(4) {
        0 => None,
        takes => Some((1..takes).map(|_| take(random)).collect()),
    };
    Options {
        every: random.below(8) == 0,
        function: (random.below(8) == 0).then(|| "f0".to_owned()),
        path,
        assume_reset: random.below(8) == 0,
    }
}

/// Whatever a text is, what is made of it is records, and notes that are
/// read back and are about lines of the text.
fn holds(text: &str, options: &Options) -> bool {
    let Ok(translated) = translate(text, options) else {
        return false;
    };
    let written = translated.notes.to_string();
    assert_eq!(written.parse::<Notes>().as_ref(), Ok(&translated.notes));
    for (address, record) in translated.notes.records() {
        let read = read_record(&record.bytes, 0);
        let Ok(Item::Record { insn, .. }) = read else {
            panic!("{read:?} is no record");
        };
        assert_eq!(insn.address, address, "{text}");
    }
    let words = text.split(|c: char| !c.is_ascii_hexdigit());
    let there: BTreeSet<u64> = words
        .filter_map(|word| u64::from_str_radix(word, 16).ok())
        .collect();
    let events = &translated.notes.events;
    assert!(
        events.iter().all(|event| there.contains(&event.address)),
        "{text}"
    );
    true
}

#[test]
fn random_bytes_are_no_disassembly() {
    let mut random = Random(0x5eed_0001);
    for _ in 0..300 {
        let length = random.below(200);
        let bytes: Vec<u8> = (0..length)
            .map(|_| random.next().to_le_bytes()[0])
            .collect();
        let text = String::from_utf8_lossy(&bytes);
        holds(&text, &asked(&mut random));
    }
}

#[test]
fn damaged_texts_are_refused_or_read() {
    let mut random = Random(0x5eed_0002);
    let mut read = 0;
    for _ in 0..400 {
        let whole = random.of(&TEXTS).to_owned();
        let times = 1 + random.below(2);
        let text = (0..times).fold(whole, |text, _| damaged(&text, &mut random));
        read += usize::from(holds(&text, &Options::default()));
        read += usize::from(holds(&text, &asked(&mut random)));
    }
    // Many of them are still read, so that more than refusals is tried.
    assert!((200..700).contains(&read), "{read} of 800");
}

#[test]
fn random_code_ends() {
    let mut random = Random(0x5eed_0003);
    let mut read = 0;
    for _ in 0..700 {
        let text = code(&mut random);
        read += usize::from(holds(&text, &Options::default()));
        read += usize::from(holds(&text, &asked(&mut random)));
    }
    assert!(read > 500, "{read} of 1400");
}

/// Texts that once did not end, or ended badly.
#[test]
fn limits_are_no_trouble() {
    let path = Options {
        path: Some(Vec::new()),
        ..Options::default()
    };
    for text in [
        "fffffffffffffffe fld1\nffffffffffffffff fldz\n",
        "0 add esp,0x7fffffffffffffff\n1 add esp,0x7fffffffffffffff\n2 ret\n",
        "0 or BYTE PTR [eax-0x7fffffffffffffff-0x1],0x1\n2 ret\n",
        "0 fld QWORD PTR [eax+0x7fffffffffffffff]\n2: R_386_32 x+0x7fffffffffffffff\n5 ret\n",
        "0 sub esp,0x8000000000000000\n5 ret\n",
        "0 jmp 0\n",
        "0 loop 0\n2 jecxz 0\n4 jmp 2\n",
        "2 fld1\n0 jmp 2\n",
        "0 jne 1\n1 jne 0\n",
    ] {
        assert!(holds(text, &Options::default()), "{text}");
        assert!(holds(text, &path), "{text}");
    }
}

/// Lines by the thousand; each tenth goes where the text does not
/// tell.
#[test]
fn long_texts_end() {
    let line = |at: usize| match at % 10 {
        0 => format!("{at:x} jmp eax\n"),
        1 => format!("{at:x} jne {:x}\n", at * 7 % 5_000),
        2 => format!("{at:x} mov DWORD PTR [esp+{:#x}],esp\n", 4 * at),
        _ => format!("{at:x} add esp,0x4\n"),
    };
    let text: String = (0..5_000).map(line).collect();
    holds(&text, &Options::default());
    let loads = |at: usize| format!("{at:x} fld QWORD PTR [eax+{:#x}]\n", 8 * at);
    let text: String = (0..5_000).map(loads).collect();
    let wrong = translate(&text, &Options::default()).expect_err("it is too long");
    assert!(wrong.why.contains("16384"), "{wrong}");
}
