//! Instructions that depend on the control word, and that change it.

use crate::address::width;
use crate::line::Code;
use crate::word::{Rounding, Word};

/// Instructions that load the control word from where nothing is known of
/// it; `fldcw` is looked at by itself.
const LOADS: [&str; 7] = [
    "fldenv",
    "frstor",
    "fxrstor",
    "fxrstor64",
    "xrstor",
    "xrstor64",
    "xrstors",
];

/// Instructions that reset it.
const RESETS: [&str; 4] = ["finit", "fninit", "fsave", "fnsave"];

/// Library functions that change it, by their names without underscores
/// in front.
const FUNCTIONS: [&str; 14] = [
    "control87",
    "control87_2",
    "controlfp",
    "controlfp_s",
    "fpreset",
    "setfpucw",
    "feholdexcept",
    "fesetenv",
    "fesetmode",
    "fesetprec",
    "fesetround",
    "feupdateenv",
    "fpsetprec",
    "fpsetround",
];

/// What an instruction takes from the control word.
#[derive(Debug, Clone, Copy, PartialEq, Eq)]
pub enum Takes {
    Nothing,
    Rounding,
    RoundingAndPrecision,
}

/// What becomes of an instruction under a control word.
#[derive(Debug, Clone, PartialEq, Eq)]
pub enum Verdict {
    /// It is what the lifter takes it for.
    AsIs,
    /// It truncates, and is lifted as this.
    Truncates(&'static str),
    /// The lifter must not model it, and why.
    Declined(String),
}

/// Whether an instruction may change the control word, and to what.
pub fn changed(code: &Code) -> Option<Word> {
    let name = code.name.as_str();
    if RESETS.contains(&name) {
        return Some(Word::RESET);
    }
    let function = code.symbol().map_or("", plain_name);
    let calls = code.is_call() && FUNCTIONS.contains(&function);
    (LOADS.contains(&name) || calls).then_some(Word::UNKNOWN)
}

/// A symbol without what compilers and linkers put around a name.
fn plain_name(symbol: &str) -> &str {
    let end = symbol.find(['@', '+', '-']).unwrap_or(symbol.len());
    let name = symbol[..end].trim_start_matches('_');
    name.strip_prefix("imp_")
        .unwrap_or(name)
        .trim_start_matches('_')
}

/// What an instruction that the lifter models takes from the word. Loads,
/// exact moves, sign changes and compares take nothing.
pub fn takes(code: &Code) -> Takes {
    let name = code.name.as_str();
    let memory = code.operands.first().map_or(0, |text| width(text));
    match name {
        "fist" | "fistp" | "frndint" => Takes::Rounding,
        "fst" | "fstp" if memory == 32 || memory == 64 => Takes::Rounding,
        "fsqrt" => Takes::RoundingAndPrecision,
        _ if is_arithmetic(name) => Takes::RoundingAndPrecision,
        _ => Takes::Nothing,
    }
}

/// `fadd`, `faddp`, `fiadd`, and so on.
fn is_arithmetic(name: &str) -> bool {
    let Some(rest) = name.strip_prefix('f') else {
        return false;
    };
    let rest = rest.strip_prefix('i').unwrap_or(rest);
    let rest = rest.strip_suffix('p').unwrap_or(rest);
    matches!(rest, "add" | "sub" | "subr" | "mul" | "div" | "divr")
}

/// What becomes of an instruction under a word, and since when it is that.
pub fn verdict(code: &Code, word: Word, since: &str) -> Verdict {
    let takes = takes(code);
    if takes == Takes::Nothing {
        return Verdict::AsIs;
    }
    match word.rounding() {
        None => return Verdict::Declined(format!("its rounding is not known{since}")),
        Some(Rounding::NearestEven) => {}
        Some(Rounding::TowardZero) if code.name == "fistp" => {
            return Verdict::Truncates("fisttp");
        }
        Some(rounding) => {
            return Verdict::Declined(format!("it {}{since}", rounding.words()));
        }
    }
    if takes == Takes::Rounding {
        return Verdict::AsIs;
    }
    match word.precision() {
        Some(64) => Verdict::AsIs,
        Some(bits) => Verdict::Declined(format!("it is rounded to {bits} bits{since}")),
        None => Verdict::Declined(format!("its precision is not known{since}")),
    }
}

/// What is said of a `fldcw`.
pub fn loaded(word: Word) -> String {
    if word.is_entry() {
        return "from here on the control word is that of the entry".to_owned();
    }
    match (word.rounding(), word.precision()) {
        (None, _) => "from here on the rounding is not known".to_owned(),
        (Some(rounding), None) => {
            format!(
                "from here on the code {}, precision not known",
                rounding.words()
            )
        }
        (Some(rounding), Some(bits)) => {
            format!(
                "from here on the code {}, precision {bits} bits",
                rounding.words()
            )
        }
    }
}
