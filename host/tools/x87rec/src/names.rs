//! Names of registers.

/// General registers by number: 64, 32, 16 and 8 bits.
const GENERAL: [[&str; 4]; 8] = [
    ["rax", "eax", "ax", "al"],
    ["rbx", "ebx", "bx", "bl"],
    ["rcx", "ecx", "cx", "cl"],
    ["rdx", "edx", "dx", "dl"],
    ["rsi", "esi", "si", "sil"],
    ["rdi", "edi", "di", "dil"],
    ["rbp", "ebp", "bp", "bpl"],
    ["rsp", "esp", "sp", "spl"],
];

/// Upper halves of 16-bit registers, and the instruction pointer.
const OTHERS: [&str; 5] = ["ah", "bh", "ch", "dh", "rip"];

/// Segment registers, which are no part of a sum.
const SEGMENTS: [&str; 6] = ["cs", "ds", "es", "fs", "gs", "ss"];

/// Beginnings of the names of other register files, which a number
/// follows.
const FILES: [&str; 9] = ["xmm", "ymm", "zmm", "mm", "cr", "dr", "tr", "k", "bnd"];

/// The 64-bit register that a name is part of, for the eight that have
/// names of their own.
pub fn parent(name: &str) -> Option<&'static str> {
    let row = GENERAL.iter().find(|row| row.contains(&name))?;
    Some(row[0])
}

/// The part of a general register that a name is.
#[derive(Debug, Clone, Copy, PartialEq, Eq)]
pub enum Part {
    /// All of it, or its lower 32 bits, which clear the rest.
    Whole,
    Word,
    Low,
    High,
}

/// Numbers of registers, for [`register`].
pub const RAX: usize = 0;
pub const RCX: usize = 2;
pub const RDX: usize = 3;
pub const RSI: usize = 4;
pub const RDI: usize = 5;
pub const RBP: usize = 6;
pub const RSP: usize = 7;

/// How many general registers there are.
pub const REGISTERS: usize = 16;

/// The number of the general register that a name is a part of, and the
/// part.
pub fn register(name: &str) -> Option<(usize, Part)> {
    let row = GENERAL.iter().position(|row| row.contains(&name));
    if let Some(row) = row {
        let part = match GENERAL[row].iter().position(|&n| n == name)? {
            2 => Part::Word,
            3 => Part::Low,
            _ => Part::Whole,
        };
        return Some((row, part));
    }
    if let Some(row) = OTHERS[..4].iter().position(|&high| high == name) {
        return Some((row, Part::High));
    }
    if !is_numbered_general(name) {
        return None;
    }
    let digits = name.trim_matches(|c: char| !c.is_ascii_digit());
    let part = match name.as_bytes().last() {
        Some(b'w') => Part::Word,
        Some(b'b' | b'l') => Part::Low,
        _ => Part::Whole,
    };
    Some((digits.parse().ok()?, part))
}

/// Whether a name is that of the lower 32 bits of a register.
pub fn is_half(name: &str) -> bool {
    let numbered = is_numbered_general(name) && name.ends_with('d');
    GENERAL.iter().any(|row| row[1] == name) || numbered
}

/// Whether this is a register that an address may be a sum of.
pub fn is_general(name: &str) -> bool {
    parent(name).is_some() || OTHERS.contains(&name) || is_numbered_general(name)
}

/// `r8` to `r15` with their narrower parts.
fn is_numbered_general(name: &str) -> bool {
    let Some(rest) = name.strip_prefix('r') else {
        return false;
    };
    let number = rest.trim_end_matches(['d', 'w', 'b', 'l']);
    rest.len() - number.len() <= 1 && matches!(number.parse(), Ok(8..=15))
}

/// Whether this is any register but a place on the x87 stack.
pub fn is_register(name: &str) -> bool {
    let numbered = |file: &&str| {
        name.strip_prefix(*file)
            .is_some_and(|n| n.parse::<u8>().is_ok())
    };
    is_general(name) || SEGMENTS.contains(&name) || FILES.iter().any(numbered)
}

/// Whether a text names an MMX register, which is an x87 register.
pub fn names_mmx(text: &str) -> bool {
    let lower = text.to_ascii_lowercase();
    lower
        .split(|c: char| !c.is_ascii_alphanumeric())
        .any(|word| matches!(word.strip_prefix("mm"), Some(n) if n.parse::<u8>().is_ok()))
}
