//! Operands of every kind: good, odd and wrong.

use plain::Operand;

/// Places on the stack as they are usually spelt.
pub const PLACES: [&str; 8] = [
    "st(0)", "st(1)", "st(2)", "st(3)", "st(4)", "st(5)", "st(6)", "st(7)",
];

/// Odd spellings of places.
pub const ODD_PLACES: [&str; 12] = [
    "ST(3)",
    "sT(0)",
    " st(1) ",
    "\tst(2)\n",
    "\x0bSt(5)\x0c\r",
    "st(+3)",
    "ST(+0)",
    "st(007)",
    "st(+00006)",
    "st(0000000000000000000000000001)",
    "   st(4)                        ",
    "st(+000000000000000000000000002)",
];

/// Register texts that are no places.
const NO_PLACES: [&str; 42] = [
    "",
    " ",
    "st",
    "st0",
    "st(",
    "st()",
    "st)",
    "st1)",
    "(1)",
    "t(1)",
    "xst(1)",
    "stt(1)",
    "st(1",
    "st(1))",
    "st((1)",
    "st(1)x",
    "st(1) x",
    "st (1)",
    "s t(1)",
    "st( 1)",
    "st(1 )",
    "st(8)",
    "st(9)",
    "st(08)",
    "st(10)",
    "st(18)",
    "st(-0)",
    "st(-1)",
    "st(+)",
    "st(++1)",
    "st(+-1)",
    "st(1+)",
    "st(a)",
    "st(0x1)",
    "st(1_0)",
    "st(:)",
    "st(/)",
    "st(257)",
    "st(4294967297)",
    "st(18446744073709551617)",
    "st(99999999999999999999999)",
    "st(00000000000000000000000000018",
];

/// Register texts around the status store's `ax`.
const REGISTERS: [&str; 13] = [
    "ax", "AX", "aX", " ax ", "\tAX", "eax", "rax", "ah", "al", "a x", "axx", "xax", "bx",
];

/// Widths of memory operands, 0 for unknown.
pub const WIDTHS: [u16; 9] = [8, 16, 32, 64, 80, 128, 0, 15, 33];

/// Every operand of a run.
#[must_use]
pub fn all() -> Vec<Operand> {
    let texts = PLACES.iter().chain(&ODD_PLACES).chain(&NO_PLACES);
    let registers = texts.chain(&REGISTERS).map(|t| register(t));
    let memory = WIDTHS
        .iter()
        .flat_map(|&width| [true, false].map(|known| memory(width, known)));
    registers.chain(memory).chain(others()).collect()
}

/// Some operands of each kind, for the runs with three of them.
#[must_use]
pub fn few() -> Vec<Operand> {
    let registers = ["st(0)", "st(1)", " ST(+7)", "st(8)", "st", "ax"].map(register);
    let memories = [(16, true), (32, true), (80, true), (64, false)].map(|(w, k)| memory(w, k));
    registers
        .into_iter()
        .chain(memories)
        .chain(others())
        .collect()
}

fn register(text: &str) -> Operand {
    Operand::register(text.as_bytes())
}

/// A memory operand; its numbers differ from one to the next.
fn memory(width: u16, known: bool) -> Operand {
    let slot = if width.is_multiple_of(16) { 0 } else { 5 };
    Operand::memory(width, known, u32::from(width) + 100, slot)
}

/// An operand that is neither, and one with a text that must be ignored.
fn others() -> [Operand; 2] {
    let silent = Operand {
        kind: plain::OTHER,
        ..Operand::register(b"st(1)")
    };
    [Operand::other(), silent]
}

#[cfg(test)]
mod tests {
    use super::all;

    #[test]
    fn operands_differ() {
        let all = all();
        for (i, operand) in all.iter().enumerate() {
            assert!(!all[..i].contains(operand), "{operand:?} stands twice");
        }
    }
}
