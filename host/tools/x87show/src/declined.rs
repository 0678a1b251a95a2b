//! Why an instruction was declined, in words. What its name takes instead
//! is asked of the proved library.

use sleetgate::{Detail, Instruction, MOST_OPERANDS, Operand, Why, why};

/// The widths of memory operands that some name takes.
const WIDTHS: [u16; 4] = [16, 32, 64, 80];

/// Why this instruction was declined.
pub fn words(insn: &Instruction, answer: Why) -> String {
    match answer {
        Why::Form(Detail::UnknownName) => {
            let name = plain(&insn.mnemonic);
            format!("the lifter does not know the name {name}")
        }
        Why::Form(Detail::OperandCount) => count(insn),
        Why::Form(Detail::OperandKind) => kinds(insn),
        Why::Form(Detail::Width) => width(insn),
        Why::Form(Detail::UnknownAddress) | Why::Overflow => answer.to_string(),
    }
}

/// How many operands it has, and how many its name takes.
fn count(insn: &Instruction) -> String {
    let taken = (0..=MOST_OPERANDS).filter(|&count| {
        let operands = vec![Operand::Other; count];
        !declines(insn, operands, Detail::OperandCount)
    });
    let (had, taken) = (insn.operands.len(), listed(taken));
    let plural = if had == 1 { "" } else { "s" };
    format!("it has {had} operand{plural}, and its name takes {taken}")
}

/// The operands that its name does not take, where they stand.
fn kinds(insn: &Instruction) -> String {
    let operands = insn.operands.iter().enumerate();
    let offending = operands.filter(|&(at, _)| offends(insn, at));
    let named = offending.map(|(at, operand)| {
        let what = match operand {
            Operand::Register(text) => plain(text),
            Operand::Memory { .. } => "memory".to_owned(),
            Operand::Other => "what is read as neither register nor memory".to_owned(),
        };
        match insn.operands.len() {
            1 => what,
            _ => format!("{what} as operand {}", at + 1),
        }
    });
    let named: Vec<String> = named.collect();
    if named.is_empty() {
        return Detail::OperandKind.to_string();
    }
    format!("its name does not take {}", named.join(", nor "))
}

/// Whether an operand is not taken where all others are `st(0)`, which
/// every name with two operands takes.
fn offends(insn: &Instruction, at: usize) -> bool {
    let mut operands = vec![Operand::st(0); insn.operands.len()];
    operands[at].clone_from(&insn.operands[at]);
    declines(insn, operands, Detail::OperandKind)
}

/// The width of its memory operand, and those that its name takes.
fn width(insn: &Instruction) -> String {
    let &[Operand::Memory { width, place }] = insn.operands.as_slice() else {
        return Detail::Width.to_string();
    };
    let taken = WIDTHS.into_iter().filter(|&bits| {
        let operands = vec![Operand::memory(bits, place)];
        !declines(insn, operands, Detail::Width)
    });
    let taken = listed(taken);
    match width {
        0 => {
            format!("the width of its memory operand is not known, and its name takes {taken} bits")
        }
        _ => format!("its memory operand has {width} bits, and its name takes {taken}"),
    }
}

/// Whether the name is declined with these operands for that reason.
fn declines(insn: &Instruction, operands: Vec<Operand>, detail: Detail) -> bool {
    let other = Instruction::new(insn.address, insn.mnemonic.as_str(), operands);
    why(&other) == Ok(Some(detail))
}

/// A text of a record, which may have any characters, on one line.
fn plain(text: &str) -> String {
    text.escape_default().to_string()
}

/// `1`, `1 or 2`, `1, 2 or 3`.
fn listed<T: ToString>(all: impl Iterator<Item = T>) -> String {
    let texts: Vec<String> = all.map(|one| one.to_string()).collect();
    match texts.split_last() {
        Some((last, before)) if !before.is_empty() => format!("{} or {last}", before.join(", ")),
        _ => texts.concat(),
    }
}

#[cfg(test)]
mod tests {
    use super::WIDTHS;
    use sleetgate::{Detail, Instruction, Operand, Place, why};

    /// The names that the lifter knows.
    const NAMES: [&str; 56] = [
        "fabs", "fadd", "faddp", "fchs", "fcmovb", "fcmovbe", "fcmove", "fcmovnb", "fcmovnbe",
        "fcmovne", "fcmovnu", "fcmovu", "fcom", "fcomi", "fcomip", "fcomp", "fcompi", "fcompp",
        "fdiv", "fdivp", "fdivr", "fdivrp", "fiadd", "ficom", "ficomp", "fidiv", "fidivr", "fild",
        "fimul", "fist", "fistp", "fisttp", "fisub", "fisubr", "fld", "fld1", "fldz", "fmul",
        "fmulp", "fnstsw", "frndint", "fsqrt", "fst", "fstp", "fstsw", "fsub", "fsubp", "fsubr",
        "fsubrp", "fucom", "fucomi", "fucomip", "fucomp", "fucompi", "fucompp", "fxch",
    ];

    fn detail(name: &str, operands: &[Operand]) -> Option<Detail> {
        let insn = Instruction::new(0, name, operands.to_vec());
        why(&insn).expect("it is not refused")
    }

    fn memory(width: u16) -> [Operand; 1] {
        [Operand::memory(width, Place::Address(1))]
    }

    /// All widths; fewer where the library is run by an emulator.
    fn widths() -> impl Iterator<Item = u16> {
        let all = !sleetgate_sys::is_emulated();
        (0..=u16::MAX).filter(move |width| all || *width <= 1_024 || width.is_multiple_of(64))
    }

    #[test]
    fn no_name_takes_another_width() {
        let mut names = NAMES.to_vec();
        names.retain(|name| detail(name, &memory(0)) == Some(Detail::Width));
        assert_eq!(names.len(), 25);
        for name in names {
            let takes = |&width: &u16| detail(name, &memory(width)).is_none();
            let taken: Vec<u16> = widths().filter(takes).collect();
            let asked = WIDTHS.into_iter().filter(takes);
            assert!(!taken.is_empty() && asked.eq(taken), "{name}");
        }
    }

    #[test]
    fn a_name_with_two_operands_takes_the_top_twice() {
        let others = [Operand::Other, Operand::Other];
        let mut names = NAMES.to_vec();
        names.retain(|name| detail(name, &others) != Some(Detail::OperandCount));
        assert_eq!(names.len(), 26);
        for name in names {
            let tops = [Operand::st(0), Operand::st(0)];
            assert_eq!(detail(name, &tops), None, "{name}");
        }
    }
}
