//! Instructions that leave the x87 stack alone.

use crate::names::names_mmx;

/// Names of instructions on general registers, memory and flags, and of
/// those SSE instructions that compilers mix with x87 code.
const NAMES: &[&str] = &[
    "adc",
    "add",
    "addps",
    "addsd",
    "addss",
    "and",
    "andnps",
    "andpd",
    "andps",
    "bsf",
    "bsr",
    "bswap",
    "bt",
    "btc",
    "btr",
    "bts",
    "cbw",
    "cdq",
    "cdqe",
    "clc",
    "cld",
    "cmc",
    "cmp",
    "cmps",
    "cmpxchg",
    "comisd",
    "comiss",
    "cqo",
    "cvtsd2ss",
    "cvtsi2sd",
    "cvtsi2ss",
    "cvtss2sd",
    "cvttsd2si",
    "cvttss2si",
    "cwd",
    "cwde",
    "dec",
    "div",
    "divsd",
    "divss",
    "endbr32",
    "endbr64",
    "idiv",
    "imul",
    "inc",
    "lahf",
    "lea",
    "leave",
    "lods",
    "loop",
    "loope",
    "loopne",
    "lzcnt",
    "mov",
    "movabs",
    "movapd",
    "movaps",
    "movd",
    "movdqa",
    "movdqu",
    "movq",
    "movs",
    "movsd",
    "movss",
    "movsx",
    "movsxd",
    "movupd",
    "movups",
    "movzx",
    "mul",
    "mulsd",
    "mulss",
    "neg",
    "nop",
    "not",
    "or",
    "orps",
    "pop",
    "popcnt",
    "push",
    "pxor",
    "rcl",
    "rcr",
    "rol",
    "ror",
    "sahf",
    "sal",
    "sar",
    "sbb",
    "scas",
    "shl",
    "shld",
    "shr",
    "shrd",
    "sqrtsd",
    "stc",
    "std",
    "stos",
    "sub",
    "subsd",
    "subss",
    "test",
    "tzcnt",
    "ucomisd",
    "ucomiss",
    "xadd",
    "xchg",
    "xor",
    "xorpd",
    "xorps",
];

/// Conditions, behind `j`, `set` and `cmov`.
const CONDITIONS: [&str; 30] = [
    "a", "ae", "b", "be", "c", "e", "g", "ge", "l", "le", "na", "nae", "nb", "nbe", "nc", "ne",
    "ng", "nge", "nl", "nle", "no", "np", "ns", "nz", "o", "p", "pe", "po", "s", "z",
];

/// Jumps on the count register.
const COUNTED: [&str; 3] = ["jcxz", "jecxz", "jrcxz"];

/// Whether an instruction cannot touch the x87 stack: its name is listed
/// and no operand is an MMX register.
#[must_use]
pub fn passes(name: &str, operands: &[String]) -> bool {
    let listed = NAMES.contains(&name) || COUNTED.contains(&name);
    (listed || is_conditional(name)) && !operands.iter().any(|text| names_mmx(text))
}

fn is_conditional(name: &str) -> bool {
    ["j", "set", "cmov"].iter().any(|family| {
        name.strip_prefix(family)
            .is_some_and(|condition| CONDITIONS.contains(&condition))
    })
}
