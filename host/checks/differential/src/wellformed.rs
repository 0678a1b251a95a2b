//! Well-formed instructions: a name with operands that it takes.

use plain::{Instruction, Operand, Text};

use crate::operands::WIDTHS;
use crate::rng::Rng;

/// What the operands of a name may be. Widths are in bits.
#[derive(Debug, Clone, Copy)]
enum Shape {
    Nothing,
    /// Nothing, or a place.
    Exchange,
    /// A place, or memory of these widths.
    PlaceOrMemory(&'static [u16]),
    Memory(&'static [u16]),
    /// Nothing, a place, or memory of these widths.
    Compare(&'static [u16]),
    /// A place, alone or as the second operand.
    FlagCompare,
    /// The top and a place.
    Move,
    /// `ax`, or memory of 16 bits.
    Status,
    /// A place, two places, or memory of 32 or 64 bits.
    Arithmetic,
    /// Nothing, a place, or two places.
    Popping,
}

/// What a name does to the depth of the stack.
#[derive(Debug, Clone, Copy, PartialEq, Eq)]
pub enum Lean {
    Push,
    Keep,
    Pop,
}

use Lean::{Keep, Pop, Push};
use Shape::{
    Arithmetic, Compare, Exchange, FlagCompare, Memory, Move, Nothing, PlaceOrMemory, Popping,
    Status,
};

const INT: &[u16] = &[16, 32, 64];
const SHORT_INT: &[u16] = &[16, 32];
const FLOAT: &[u16] = &[32, 64, 80];
const SHORT_FLOAT: &[u16] = &[32, 64];

/// A name, its operands, and what it does to the depth.
type Entry = (&'static str, Shape, Lean);

/// The 56 names with what they take.
const TABLE: [Entry; 56] = [
    ("fld1", Nothing, Push),
    ("fldz", Nothing, Push),
    ("fld", PlaceOrMemory(FLOAT), Push),
    ("fild", Memory(INT), Push),
    ("fabs", Nothing, Keep),
    ("fchs", Nothing, Keep),
    ("fsqrt", Nothing, Keep),
    ("frndint", Nothing, Keep),
    ("fxch", Exchange, Keep),
    ("fst", PlaceOrMemory(SHORT_FLOAT), Keep),
    ("fist", Memory(SHORT_INT), Keep),
    ("fcom", Compare(SHORT_FLOAT), Keep),
    ("fucom", Exchange, Keep),
    ("fcomi", FlagCompare, Keep),
    ("fucomi", FlagCompare, Keep),
    ("fnstsw", Status, Keep),
    ("fstsw", Status, Keep),
    ("fcmovb", Move, Keep),
    ("fcmove", Move, Keep),
    ("fcmovbe", Move, Keep),
    ("fcmovu", Move, Keep),
    ("fcmovnb", Move, Keep),
    ("fcmovne", Move, Keep),
    ("fcmovnbe", Move, Keep),
    ("fcmovnu", Move, Keep),
    ("fiadd", Memory(SHORT_INT), Keep),
    ("fisub", Memory(SHORT_INT), Keep),
    ("fisubr", Memory(SHORT_INT), Keep),
    ("fimul", Memory(SHORT_INT), Keep),
    ("fidiv", Memory(SHORT_INT), Keep),
    ("fidivr", Memory(SHORT_INT), Keep),
    ("ficom", Memory(SHORT_INT), Keep),
    ("fadd", Arithmetic, Keep),
    ("fmul", Arithmetic, Keep),
    ("fsub", Arithmetic, Keep),
    ("fsubr", Arithmetic, Keep),
    ("fdiv", Arithmetic, Keep),
    ("fdivr", Arithmetic, Keep),
    ("fstp", PlaceOrMemory(FLOAT), Pop),
    ("fistp", Memory(INT), Pop),
    ("fisttp", Memory(INT), Pop),
    ("fcomp", Compare(SHORT_FLOAT), Pop),
    ("fucomp", Exchange, Pop),
    ("fcompp", Nothing, Pop),
    ("fucompp", Nothing, Pop),
    ("fcompi", FlagCompare, Pop),
    ("fucompi", FlagCompare, Pop),
    ("fcomip", FlagCompare, Pop),
    ("fucomip", FlagCompare, Pop),
    ("ficomp", Memory(SHORT_INT), Pop),
    ("faddp", Popping, Pop),
    ("fmulp", Popping, Pop),
    ("fsubp", Popping, Pop),
    ("fsubrp", Popping, Pop),
    ("fdivp", Popping, Pop),
    ("fdivrp", Popping, Pop),
];

/// How instructions are made.
#[derive(Debug, Clone, Copy)]
pub struct Style {
    /// Whether texts are spelt in odd ways now and then.
    pub odd: bool,
    /// Whether places stay within the depth, but for a few.
    pub near: bool,
}

/// A random instruction of this lean over a stack of this depth.
pub fn random(rng: &mut Rng, style: Style, lean: Lean, depth: usize) -> Instruction {
    let entries: Vec<&Entry> = TABLE.iter().filter(|e| e.2 == lean).collect();
    let (name, shape, _) = **rng.pick(&entries);
    let operands = operands(rng, style, shape, depth);
    let address = if rng.one_in(4) { rng.word() } else { 4096 };
    Instruction::new(address, &name_text(rng, style, name), &operands)
}

/// A random instruction of that name.
///
/// # Panics
/// Where the name is none of the 56.
pub fn of_name(rng: &mut Rng, style: Style, name: &str, depth: usize) -> Instruction {
    let entry = TABLE.iter().find(|e| e.0 == name).expect("one of the 56");
    let operands = operands(rng, style, entry.1, depth);
    Instruction::new(4096, &name_text(rng, style, name), &operands)
}

/// A random instruction that is nearly well formed: one or two things of
/// it are not as its name takes them.
pub fn nearly(rng: &mut Rng) -> Instruction {
    let style = Style {
        odd: rng.one_in(2),
        near: false,
    };
    let name = rng.pick(&TABLE).0;
    let mut insn = of_name(rng, style, name, 8);
    for _ in 0..rng.between(1, 2) {
        spoil(&mut insn, rng);
    }
    insn
}

/// Change the number of operands, or the kind, the text, the address or the
/// width of one. What is changed may be ignored, where it is a field of
/// another kind.
fn spoil(insn: &mut Instruction, rng: &mut Rng) {
    let at = rng.below(insn.used().len().max(1));
    let operand = &mut insn.operands[at];
    match rng.below(8) {
        0 => insn.count = *rng.pick(&[0, 1, 2, 3]),
        1 => operand.kind = *rng.pick(&[plain::REGISTER, plain::MEMORY, plain::OTHER]),
        2 => operand.text = Text::new(rng.pick(&["st(1)", "st(8)", "st", "eax"]).as_bytes()),
        3 | 4 => operand.width = *rng.pick(&WIDTHS),
        _ => operand.known = 0,
    }
}

/// Operands of this shape, in one of up to three ways.
fn operands(rng: &mut Rng, style: Style, shape: Shape, depth: usize) -> Vec<Operand> {
    let way = rng.below(3);
    match shape {
        Nothing => vec![],
        Exchange => places(rng, style, depth, way.min(1)),
        Popping => places(rng, style, depth, way),
        Memory(widths) => vec![memory(rng, widths)],
        PlaceOrMemory(widths) => match way {
            0 => places(rng, style, depth, 1),
            _ => vec![memory(rng, widths)],
        },
        Compare(widths) => match way {
            2 => vec![memory(rng, widths)],
            count => places(rng, style, depth, count),
        },
        Arithmetic => match way {
            0 => vec![memory(rng, SHORT_FLOAT)],
            count => places(rng, style, depth, count),
        },
        FlagCompare => match way {
            0 => places(rng, style, depth, 1),
            _ => vec![any(rng, style, depth), place(rng, style, depth)],
        },
        Move => vec![top(rng, style), place(rng, style, depth)],
        Status => match way {
            0 => vec![memory(rng, &[16])],
            _ => vec![status_register(rng, style)],
        },
    }
}

/// So many places.
fn places(rng: &mut Rng, style: Style, depth: usize, count: usize) -> Vec<Operand> {
    (0..count).map(|_| place(rng, style, depth)).collect()
}

/// An operand that is not looked at.
fn any(rng: &mut Rng, style: Style, depth: usize) -> Operand {
    match rng.below(4) {
        0 if style.odd => Operand::other(),
        1 if style.odd => memory(rng, &[0, 8, 128]),
        2 if style.odd => Operand::register(b"eax"),
        _ => place(rng, style, depth),
    }
}

fn place(rng: &mut Rng, style: Style, depth: usize) -> Operand {
    let index = if style.near && !rng.one_in(16) {
        rng.below(depth.clamp(1, 8))
    } else {
        rng.below(8)
    };
    place_text(rng, style, index)
}

fn top(rng: &mut Rng, style: Style) -> Operand {
    place_text(rng, style, 0)
}

fn place_text(rng: &mut Rng, style: Style, index: usize) -> Operand {
    let text = match rng.below(12) {
        0 if style.odd => format!("ST({index})"),
        1 if style.odd => format!(" st(+{index})\t"),
        2 if style.odd => format!("sT(000{index})"),
        _ => format!("st({index})"),
    };
    Operand::register(text.as_bytes())
}

fn status_register(rng: &mut Rng, style: Style) -> Operand {
    let text = if style.odd && rng.one_in(2) {
        "AX"
    } else {
        "ax"
    };
    Operand::register(text.as_bytes())
}

/// Memory of one of these widths, at some address, in a slot or not.
fn memory(rng: &mut Rng, widths: &[u16]) -> Operand {
    let address = if rng.one_in(4) {
        u32::try_from(rng.word() >> 32).expect("32 bits")
    } else {
        u32::try_from(rng.below(100)).expect("small")
    };
    let slot = match rng.below(8) {
        0 => u32::MAX,
        1 | 2 => u32::try_from(rng.between(1, 3)).expect("small"),
        _ => 0,
    };
    Operand::memory(*rng.pick(widths), true, address, slot)
}

fn name_text(rng: &mut Rng, style: Style, name: &str) -> Vec<u8> {
    match rng.below(16) {
        0 if style.odd => name.to_ascii_uppercase().into_bytes(),
        1 if style.odd => format!(" {name}\t\n").into_bytes(),
        _ => name.as_bytes().to_vec(),
    }
}

#[cfg(test)]
mod tests {
    use super::TABLE;
    use crate::names::NAMES;

    #[test]
    fn the_table_has_every_name_once() {
        let mut listed = TABLE.map(|entry| entry.0);
        let mut names = NAMES;
        listed.sort_unstable();
        names.sort_unstable();
        assert_eq!(listed, names);
    }

    #[cfg(not(no_oracle))]
    #[test]
    fn what_is_well_formed_is_modelled() {
        use super::{Keep, Pop, Push, Style, random};
        let mut rng = crate::rng::Rng::new(5);
        for round in 0..20_000 {
            let style = Style {
                odd: round % 2 == 0,
                near: round % 3 == 0,
            };
            let lean = [Push, Keep, Pop][round % 3];
            let insn = random(&mut rng, style, lean, round % 9);
            assert!(crate::oracle::classify(&insn).is_some(), "{insn:?}");
        }
    }
}
