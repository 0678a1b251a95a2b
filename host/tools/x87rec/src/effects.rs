//! What instructions write besides the x87 stack.

use crate::address::immediate;
use crate::line::Code;
use crate::names::{RAX, RCX, RDI, RDX, RSI, is_half, names_mmx};
use crate::passing::passes;

/// The x87 instructions: those that the lifter models, and the others.
const X87: [&str; 103] = [
    "fabs", "fadd", "faddp", "fchs", "fcmovb", "fcmovbe", "fcmove", "fcmovnb", "fcmovnbe",
    "fcmovne", "fcmovnu", "fcmovu", "fcom", "fcomi", "fcomip", "fcomp", "fcompi", "fcompp", "fdiv",
    "fdivp", "fdivr", "fdivrp", "fiadd", "ficom", "ficomp", "fidiv", "fidivr", "fild", "fimul",
    "fist", "fistp", "fisttp", "fisub", "fisubr", "fld", "fld1", "fldz", "fmul", "fmulp", "fnstsw",
    "frndint", "fsqrt", "fst", "fstp", "fstsw", "fsub", "fsubp", "fsubr", "fsubrp", "fucom",
    "fucomi", "fucomip", "fucomp", "fucompi", "fucompp", "fxch", "f2xm1", "fbld", "fbstp", "fclex",
    "fcos", "fdecstp", "fdisi", "feni", "ffree", "ffreep", "fincstp", "finit", "fldcw", "fldenv",
    "fldl2e", "fldl2t", "fldlg2", "fldln2", "fldpi", "fnclex", "fndisi", "fneni", "fninit", "fnop",
    "fnsave", "fnstcw", "fnstenv", "fpatan", "fprem", "fprem1", "fptan", "frstor", "fsave",
    "fscale", "fsetpm", "fsin", "fsincos", "fstcw", "fstenv", "ftst", "fwait", "fxam", "fxrstor",
    "fxsave", "fxtract", "fyl2x", "fyl2xp1",
];

/// Whether this is the name of an x87 instruction.
pub fn is_x87(name: &str) -> bool {
    X87.contains(&name) || name == "wait"
}

/// How many flags are followed: CF, PF and ZF.
pub const FLAGS: usize = 3;

/// What the flags are called.
pub const FLAG_NAMES: [&str; FLAGS] = ["CF", "PF", "ZF"];

/// Instructions that leave all flags alone, besides jumps, `set`, `cmov`
/// and what computes in vector registers.
const NO_FLAGS: [&str; 23] = [
    "bswap", "cbw", "cdq", "cdqe", "cld", "cqo", "cwd", "cwde", "endbr32", "endbr64", "lahf",
    "lea", "leave", "lods", "loop", "loope", "loopne", "nop", "not", "pop", "push", "std", "stos",
];

/// Families of names that leave all flags alone.
const FAMILIES: [&str; 7] = ["cmov", "cvt", "j", "mov", "ret", "set", "xchg"];

/// Instructions that write the carry alone.
const CARRY: [&str; 7] = ["clc", "cmc", "rcl", "rcr", "rol", "ror", "stc"];

/// Instructions that read their first operand only.
const READERS: [&str; 14] = [
    "bt", "cmp", "cmps", "comisd", "comiss", "div", "idiv", "mul", "nop", "push", "scas", "test",
    "ucomisd", "ucomiss",
];

/// Compares that write flags.
pub const FLAG_COMPARES: [&str; 6] = ["fcomi", "fcomip", "fcompi", "fucomi", "fucomip", "fucompi"];

/// x87 instructions that write the condition codes of the status word.
const STATUS: [&str; 26] = [
    "fcom",
    "fcomp",
    "fcompp",
    "fucom",
    "fucomp",
    "fucompp",
    "ficom",
    "ficomp",
    "ftst",
    "fxam",
    "fprem",
    "fprem1",
    "fsin",
    "fcos",
    "fsincos",
    "fptan",
    "finit",
    "fninit",
    "fsave",
    "fnsave",
    "fclex",
    "fnclex",
    "fldenv",
    "frstor",
    "fxrstor",
    "fxrstor64",
];

/// Conditional moves of the x87 stack and the flags that each reads.
const MOVES: [(&str, [bool; FLAGS]); 8] = [
    ("fcmovb", [true, false, false]),
    ("fcmovnb", [true, false, false]),
    ("fcmove", [false, false, true]),
    ("fcmovne", [false, false, true]),
    ("fcmovbe", [true, false, true]),
    ("fcmovnbe", [true, false, true]),
    ("fcmovu", [false, true, false]),
    ("fcmovnu", [false, true, false]),
];

/// Which of CF, PF and ZF an instruction may write.
pub fn flags(code: &Code) -> [bool; FLAGS] {
    let name = code.name.as_str();
    if is_x87(name) {
        return [FLAG_COMPARES.contains(&name); FLAGS];
    }
    if keeps_control(code) {
        return [name.contains("comis") || name.contains("test"); FLAGS];
    }
    if !passes(name, &code.operands) && !code.is_return() && name != "jmp" {
        return [true; FLAGS];
    }
    if FAMILIES.iter().any(|family| name.starts_with(family)) || NO_FLAGS.contains(&name) {
        return [false; FLAGS];
    }
    if CARRY.contains(&name) {
        return [true, false, false];
    }
    match name {
        "inc" | "dec" => [false, true, true],
        "bt" | "btc" | "btr" | "bts" => [true, true, false],
        _ => [true; FLAGS],
    }
}

/// Whether an instruction that writes flags leaves them alone where its
/// count is zero.
pub fn may_leave_flags(code: &Code) -> bool {
    let shifts = [
        "rcl", "rcr", "rol", "ror", "sal", "sar", "shl", "shld", "shr", "shrd",
    ];
    let counts = ["cmps", "scas"];
    let last = code.operands.last().filter(|_| code.operands.len() > 1);
    let counted = last.is_some_and(|text| immediate(text).is_none_or(|count| count % 32 == 0));
    let repeated = code.prefixes.iter().any(|word| word.starts_with("rep"));
    let name = code.name.as_str();
    shifts.contains(&name) && counted || counts.contains(&name) && repeated
}

/// Which of CF, PF and ZF an x87 instruction reads.
pub fn reads(name: &str) -> [bool; FLAGS] {
    let row = MOVES.iter().find(|(own, _)| *own == name);
    row.map_or([false; FLAGS], |(_, flags)| *flags)
}

/// Whether an instruction may write the condition codes.
pub fn writes_status(code: &Code) -> bool {
    let name = code.name.as_str();
    let unknown = !is_x87(name)
        && !name.starts_with('j')
        && !code.is_return()
        && !passes(name, &code.operands)
        && (!keeps_control(code) || code.operands.iter().any(|text| names_mmx(text)));
    STATUS.contains(&name) || unknown
}

/// Whether an instruction may change the rest of the status word: all x87
/// instructions but those that only look at it or at the control word.
pub fn disturbs_status(code: &Code) -> bool {
    let looks = [
        "fldcw", "fnop", "fnstcw", "fnstsw", "fstcw", "fstsw", "fwait", "wait",
    ];
    is_x87(&code.name) && !looks.contains(&code.name.as_str())
}

/// Whether an x87 instruction reads the status word.
pub fn reads_status(name: &str) -> bool {
    matches!(name, "fstsw" | "fnstsw")
}

/// Whether an x87 instruction stores to its memory operand.
pub fn stores(code: &Code) -> bool {
    ["fst", "fnst", "fist", "fbst", "fsave", "fnsave", "fxsave"]
        .iter()
        .any(|begin| code.name.starts_with(begin))
}

/// Which operands an instruction that passes writes.
pub fn operands(code: &Code) -> Vec<usize> {
    let name = code.name.as_str();
    let counted = name.starts_with('j') || name.starts_with("loop");
    let same = code.operands.first() == code.operands.get(1);
    if name == "xchg" && same && !code.operands.iter().any(|text| is_half(text)) {
        return Vec::new();
    }
    match name {
        "xchg" | "xadd" | "cmpxchg" => vec![0, 1],
        "imul" if code.operands.len() == 1 => Vec::new(),
        _ if counted || READERS.contains(&name) => Vec::new(),
        _ => vec![0],
    }
}

/// Which registers it writes that are not among its operands.
pub fn registers(code: &Code) -> Vec<usize> {
    let mut all = match code.name.as_str() {
        "mul" | "div" | "idiv" | "cdq" | "cqo" | "cwd" => vec![RAX, RDX],
        "imul" if code.operands.len() == 1 => vec![RAX, RDX],
        "cbw" | "cwde" | "cdqe" | "lahf" | "cmpxchg" => vec![RAX],
        "lods" => vec![RAX, RSI],
        "stos" | "scas" => vec![RDI],
        "movs" | "cmps" => vec![RSI, RDI],
        _ if is_string_move(code) => vec![RSI, RDI],
        "loop" | "loope" | "loopne" => vec![RCX],
        _ => Vec::new(),
    };
    if code.prefixes.iter().any(|word| word.starts_with("rep")) {
        all.push(RCX);
    }
    all
}

/// Whether it stores where a register points.
pub fn writes_anywhere(code: &Code) -> bool {
    let name = code.name.as_str();
    matches!(name, "stos" | "movs") || name.starts_with("maskmov") || is_string_move(code)
}

/// Whether it stores at a bit that a register counts from its operand on.
pub fn writes_counted_bit(code: &Code) -> bool {
    let counted = code
        .operands
        .get(1)
        .is_some_and(|text| immediate(text).is_none());
    counted && matches!(code.name.as_str(), "bts" | "btr" | "btc")
}

/// Whether this is the string instruction `movsd`, not the one on vector
/// registers.
fn is_string_move(code: &Code) -> bool {
    let vector = code
        .operands
        .iter()
        .any(|text| text.to_ascii_lowercase().contains("xmm"));
    code.name == "movsd" && !vector
}

/// Whether an instruction that is not known to pass still leaves the
/// control word alone: it computes in vector registers or on the MMX
/// registers.
pub fn keeps_control(code: &Code) -> bool {
    let vector = |word: &str| {
        let number = ["xmm", "ymm", "zmm", "mm"]
            .iter()
            .find_map(|file| word.strip_prefix(file));
        number.is_some_and(|n| n.parse::<u8>().is_ok())
    };
    let named = code.operands.iter().any(|text| {
        let lower = text.to_ascii_lowercase();
        lower
            .split(|c: char| !c.is_ascii_alphanumeric())
            .any(vector)
    });
    let name = code.name.as_str();
    named || matches!(name, "emms" | "femms" | "vzeroall" | "vzeroupper")
}
