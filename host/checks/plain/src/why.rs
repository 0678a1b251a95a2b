//! Why an instruction is declined: the first of five details that holds.

use crate::{
    Instruction, MEMORY, Operand, REGISTER, Text, UNKNOWN_ADDRESS, UNKNOWN_NAME, WRONG_COUNT,
    WRONG_KIND, WRONG_WIDTH,
};

/// What a name takes as one of its operands. Widths are in bits.
#[derive(Debug, Clone, Copy)]
enum Takes {
    /// Any place.
    Place,
    /// The place `st(0)` alone.
    Top,
    /// Memory of one of these widths.
    Memory(&'static [u16]),
    /// Any place, or memory of one of these widths.
    PlaceOrMemory(&'static [u16]),
    /// The register `ax`, or memory of one of these widths.
    AxOrMemory(&'static [u16]),
    /// An operand that is not looked at.
    Anything,
}

use Takes::{Anything, AxOrMemory, Memory, Place, PlaceOrMemory, Top};

/// Whether a detail holds of an operand, where this is taken.
type Test = fn(Takes, &Operand) -> bool;

/// The lists of operands that a name takes, no two of one length.
type Lists = &'static [&'static [Takes]];

/// The 56 names, and what each takes.
const NAMES: [(&[&str], Lists); 12] = [
    (
        &[
            "fld1", "fldz", "fabs", "fchs", "fsqrt", "frndint", "fcompp", "fucompp",
        ],
        &[&[]],
    ),
    (&["fxch", "fucom", "fucomp"], &[&[], &[Place]]),
    (&["fld", "fstp"], &[&[PlaceOrMemory(&[32, 64, 80])]]),
    (&["fst"], &[&[PlaceOrMemory(&[32, 64])]]),
    (&["fcom", "fcomp"], &[&[], &[PlaceOrMemory(&[32, 64])]]),
    (&["fild", "fistp", "fisttp"], &[&[Memory(&[16, 32, 64])]]),
    (
        &[
            "fist", "fiadd", "fimul", "fisub", "fisubr", "fidiv", "fidivr", "ficom", "ficomp",
        ],
        &[&[Memory(&[16, 32])]],
    ),
    (
        &["fadd", "fmul", "fsub", "fsubr", "fdiv", "fdivr"],
        &[&[PlaceOrMemory(&[32, 64])], &[Place, Place]],
    ),
    (
        &["faddp", "fmulp", "fsubp", "fsubrp", "fdivp", "fdivrp"],
        &[&[], &[Place], &[Place, Place]],
    ),
    (
        &["fcomi", "fucomi", "fcomip", "fucomip", "fcompi", "fucompi"],
        &[&[Place], &[Anything, Place]],
    ),
    (
        &[
            "fcmovb", "fcmove", "fcmovbe", "fcmovu", "fcmovnb", "fcmovne", "fcmovnbe", "fcmovnu",
        ],
        &[&[Top, Place]],
    ),
    (&["fnstsw", "fstsw"], &[&[AxOrMemory(&[16])]]),
];

/// The detail of an instruction that is not refused: the first that holds,
/// in rising order, or 0 where none does and the instruction is modelled.
#[must_use]
pub fn why(insn: &Instruction) -> u32 {
    let Some(lists) = lists(&insn.mnemonic) else {
        return UNKNOWN_NAME;
    };
    let given = insn.used();
    let Some(list) = lists.iter().find(|list| list.len() == given.len()) else {
        return WRONG_COUNT;
    };
    let tests: [(u32, Test); 3] = [
        (WRONG_KIND, wrong_kind),
        (UNKNOWN_ADDRESS, unknown_address),
        (WRONG_WIDTH, wrong_width),
    ];
    let holds = |test: Test| {
        let mut operands = list.iter().zip(given);
        operands.any(|(&takes, operand)| test(takes, operand))
    };
    let first = tests.into_iter().find(|&(_, test)| holds(test));
    first.map_or(0, |(detail, _)| detail)
}

/// What a name takes, if it is one of the 56.
fn lists(mnemonic: &Text) -> Option<Lists> {
    let name = mnemonic.as_read();
    let of_name = |(names, _): &&(&[&str], Lists)| names.iter().any(|n| n.as_bytes() == name);
    NAMES.iter().find(of_name).map(|&(_, lists)| lists)
}

/// An operand of another kind, a register that is not taken, or another
/// place than `st(0)` where only that is taken.
fn wrong_kind(takes: Takes, operand: &Operand) -> bool {
    let place = place(operand);
    let is_memory = operand.kind == MEMORY;
    match takes {
        Place => place.is_none(),
        Top => place != Some(0),
        Memory(_) => !is_memory,
        PlaceOrMemory(_) => place.is_none() && !is_memory,
        AxOrMemory(_) => !is_ax(operand) && !is_memory,
        Anything => false,
    }
}

/// Memory that is taken, at an address that is not known.
fn unknown_address(takes: Takes, operand: &Operand) -> bool {
    widths(takes).is_some() && operand.kind == MEMORY && operand.known == 0
}

/// Memory that is taken, but not of this width.
fn wrong_width(takes: Takes, operand: &Operand) -> bool {
    let listed = |widths: &[u16]| widths.contains(&operand.width);
    operand.kind == MEMORY && widths(takes).is_some_and(|widths| !listed(widths))
}

/// The widths of memory, where memory is taken and looked at.
fn widths(takes: Takes) -> Option<&'static [u16]> {
    match takes {
        Memory(widths) | PlaceOrMemory(widths) | AxOrMemory(widths) => Some(widths),
        Place | Top | Anything => None,
    }
}

/// The place that a register's text names: `st(`, perhaps a `+`, one or
/// more digits, `)`, of a number from 0 to 7.
fn place(operand: &Operand) -> Option<u8> {
    if operand.kind != REGISTER {
        return None;
    }
    let text = operand.text.as_read();
    let inner = text.strip_prefix(b"st(")?.strip_suffix(b")")?;
    let digits = inner.strip_prefix(b"+").unwrap_or(inner);
    let (&last, before) = digits.split_last()?;
    let small = before.iter().all(|&digit| digit == b'0');
    (small && (b'0'..=b'7').contains(&last)).then(|| last - b'0')
}

fn is_ax(operand: &Operand) -> bool {
    operand.kind == REGISTER && operand.text.as_read() == b"ax"
}

#[cfg(test)]
mod tests {
    use super::{NAMES, place, why};
    use crate::{Instruction, Operand};

    fn st(place: u8) -> Operand {
        Operand::register(format!("st({place})").as_bytes())
    }

    /// Memory at a known address.
    fn memory(width: u16) -> Operand {
        Operand::memory(width, true, 7, 0)
    }

    /// Memory at an address that is not known.
    fn nowhere(width: u16) -> Operand {
        Operand::memory(width, false, 7, 0)
    }

    fn detail(name: &str, operands: &[Operand]) -> u32 {
        why(&Instruction::new(16, name.as_bytes(), operands))
    }

    #[test]
    fn the_56_names_stand_once() {
        let mut names: Vec<&str> = NAMES
            .iter()
            .flat_map(|(names, _)| *names)
            .copied()
            .collect();
        names.sort_unstable();
        assert_eq!(names.len(), 56);
        assert!(names.is_sorted_by(|a, b| a < b));
        for (names, lists) in NAMES {
            assert!(lists.is_sorted_by(|a, b| a.len() < b.len()), "{names:?}");
        }
    }

    #[test]
    fn what_is_modelled_has_no_detail() {
        let ax = Operand::register(b"\tAX ");
        let modelled: [(&str, &[Operand]); 12] = [
            ("fld1", &[]),
            (" FXCH\n", &[]),
            ("fucom", &[st(7)]),
            ("fld", &[memory(80)]),
            ("fst", &[st(3)]),
            ("fcomp", &[memory(64)]),
            ("fisttp", &[memory(64)]),
            ("fist", &[memory(16)]),
            ("fdivr", &[st(2), st(0)]),
            ("fsubrp", &[st(1)]),
            ("fcmovnbe", &[Operand::register(b"ST(+00)"), st(5)]),
            ("fstsw", &[ax]),
        ];
        for (name, operands) in modelled {
            assert_eq!(detail(name, operands), 0, "{name} {operands:?}");
        }
        for first in [st(9), memory(8), nowhere(0), Operand::other()] {
            assert_eq!(detail("fucomip", &[first, st(1)]), 0, "{first:?}");
        }
    }

    #[test]
    fn a_name_that_is_none_of_the_56_is_21() {
        for name in [
            "", "f", "fprem", "fcmov", "faddpp", "fiaddp", "f ld", "fld\0",
        ] {
            assert_eq!(detail(name, &[]), 21, "{name}");
        }
        assert_eq!(detail("fsin", &[Operand::other(), nowhere(8), st(8)]), 21);
    }

    #[test]
    fn another_number_of_operands_is_22() {
        assert_eq!(detail("fabs", &[st(0)]), 22);
        assert_eq!(detail("fld", &[]), 22);
        assert_eq!(detail("fxch", &[st(0), st(1)]), 22);
        assert_eq!(detail("fadd", &[]), 22);
        assert_eq!(detail("fcomi", &[]), 22);
        assert_eq!(detail("fcmovb", &[st(1)]), 22);
        assert_eq!(detail("faddp", &[st(1), st(0), st(0)]), 22);
        assert_eq!(detail("fnstsw", &[]), 22);
    }

    #[test]
    fn an_operand_of_another_kind_or_a_text_that_is_not_taken_is_23() {
        assert_eq!(detail("fld", &[Operand::other()]), 23);
        assert_eq!(detail("fld", &[st(8)]), 23);
        assert_eq!(detail("fild", &[st(0)]), 23);
        assert_eq!(detail("fucom", &[memory(32)]), 23);
        assert_eq!(detail("fadd", &[st(0), memory(32)]), 23);
        assert_eq!(detail("faddp", &[Operand::register(b"eax"), st(0)]), 23);
        assert_eq!(detail("fcomi", &[st(1), Operand::other()]), 23);
        assert_eq!(detail("fcmove", &[st(1), st(0)]), 23);
        assert_eq!(detail("fcmove", &[st(0), memory(64)]), 23);
        assert_eq!(detail("fnstsw", &[st(0)]), 23);
        assert_eq!(detail("fnstsw", &[Operand::register(b"eax")]), 23);
    }

    #[test]
    fn an_address_that_is_not_known_is_24() {
        assert_eq!(detail("fld", &[nowhere(32)]), 24);
        assert_eq!(detail("fist", &[nowhere(16)]), 24);
        assert_eq!(detail("fnstsw", &[nowhere(16)]), 24);
    }

    #[test]
    fn a_width_that_is_not_taken_is_25() {
        assert_eq!(detail("fist", &[memory(64)]), 25);
        assert_eq!(detail("fst", &[memory(80)]), 25);
        assert_eq!(detail("fld", &[memory(0)]), 25);
        assert_eq!(detail("fild", &[memory(80)]), 25);
        assert_eq!(detail("fadd", &[memory(16)]), 25);
        assert_eq!(detail("fstsw", &[memory(32)]), 25);
    }

    #[test]
    fn the_first_that_holds_is_told() {
        assert_eq!(detail("fprem", &[nowhere(8)]), 21);
        assert_eq!(detail("fld", &[Operand::other(), nowhere(8)]), 22);
        assert_eq!(detail("fabs", &[nowhere(8)]), 22);
        assert_eq!(detail("fadd", &[nowhere(8), nowhere(8)]), 23);
        assert_eq!(detail("fcmovb", &[nowhere(8), st(1)]), 23);
        assert_eq!(detail("fist", &[nowhere(64)]), 24);
        assert_eq!(detail("fist", &[memory(64)]), 25);
    }

    #[test]
    fn only_what_is_below_the_count_and_of_the_kind_is_looked_at() {
        let mut insn = Instruction::new(0, b"fld", &[memory(32), Operand::other(), st(9)]);
        insn.count = 1;
        insn.operands[0].text = st(9).text;
        assert_eq!(why(&insn), 0);
        insn.operands[0].kind = crate::OTHER;
        insn.operands[0].text = st(1).text;
        assert_eq!(why(&insn), 23);
    }

    #[test]
    fn places_are_those_of_the_manual() {
        let of = |text: &str| place(&Operand::register(text.as_bytes()));
        assert_eq!(
            ["st(0)", "ST(3)", "\x0bst(+3)", "st(007)"].map(of),
            [Some(0), Some(3), Some(3), Some(7)]
        );
        for text in [
            "st", "st0", "st()", "st(+)", "st(-0)", "st( 1)", "st(8)", "st(10)", "eax",
        ] {
            assert_eq!(of(text), None, "{text}");
        }
        assert_eq!(place(&memory(32)), None);
    }
}
