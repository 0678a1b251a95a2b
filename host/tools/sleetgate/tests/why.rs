//! Why an instruction is declined: what each call says of it, and the rows
//! of statements that say it.

use std::collections::BTreeSet;

use sleetgate::{
    Detail, Instruction, Lifted, Lifter, Operand, Place, Statement, Why, classify, effect, why,
    write_record,
};

/// Each way to be declined by the form: where several hold, the first.
fn declines() -> Vec<(Instruction, Detail)> {
    use Detail::{OperandCount, OperandKind, UnknownAddress, UnknownName, Width};
    let near = |width| Operand::memory(width, Place::Address(1));
    let far = |width| Operand::memory(width, Place::Unknown);
    let (st, ax, other) = (Operand::st, Operand::register("ax"), Operand::Other);
    let cases = [
        ("fsin", vec![], UnknownName),
        ("", vec![], UnknownName),
        ("?fadd", vec![far(7), other.clone()], UnknownName),
        ("fld", vec![], OperandCount),
        ("fld1", vec![st(0)], OperandCount),
        ("fxch", vec![other.clone(), far(7)], OperandCount),
        ("fcomi", vec![st(0), st(1), st(2)], OperandCount),
        ("fld", vec![other.clone()], OperandKind),
        ("fld", vec![st(8)], OperandKind),
        ("fld", vec![ax.clone()], OperandKind),
        ("fxch", vec![far(7)], OperandKind),
        ("fadd", vec![st(0), far(7)], OperandKind),
        ("fcomi", vec![other, far(7)], OperandKind),
        ("fcmovb", vec![st(1), st(2)], OperandKind),
        ("fnstsw", vec![Operand::register("eax")], OperandKind),
        ("fld", vec![far(64)], UnknownAddress),
        ("fistp", vec![far(7)], UnknownAddress),
        ("fnstsw", vec![far(32)], UnknownAddress),
        ("fist", vec![near(64)], Width),
        ("fadd", vec![near(80)], Width),
        ("fld", vec![near(0)], Width),
        ("fnstsw", vec![near(32)], Width),
    ];
    let insn = |name: &str, operands| Instruction::new(0x40, name, operands);
    cases
        .map(|(name, operands, detail)| (insn(name, operands), detail))
        .into()
}

/// The call itself, a lift, a lift of its record and the statement say the
/// same.
#[test]
fn a_decline_has_its_detail() {
    for (insn, detail) in declines() {
        let (answer, address) = (Why::Form(detail), insn.address);
        let declined = Lifted::Declined(answer);
        assert_eq!(why(&insn), Ok(Some(detail)), "{insn:?}");
        assert_eq!((classify(&insn), effect(&insn)), (Ok(None), Ok(None)));
        let mut lifter = Lifter::default();
        assert_eq!(lifter.lift(&insn), Ok(declined), "{insn:?}");
        let mut bytes = Vec::new();
        write_record(&insn, &mut bytes).expect("it has a record");
        let lifted = lifter.lift_record(&bytes, 0);
        assert_eq!(lifted, Ok(Some((declined, bytes.len()))), "{insn:?}");
        let statement = Statement::Unsupported { answer, address };
        assert!(lifter.statements().iter().eq([statement; 2]));
    }
    let met: BTreeSet<Detail> = declines().into_iter().map(|(_, detail)| detail).collect();
    assert!(met.into_iter().eq(Detail::ALL));
}

#[test]
fn what_is_modelled_has_no_detail() {
    let width = |width| vec![Operand::memory(width, Place::Address(1))];
    let modelled = [
        ("fld1", vec![]),
        (" FXCH ", vec![]),
        ("fld", width(80)),
        ("fist", width(16)),
        ("fcomi", vec![Operand::Other, Operand::st(1)]),
        ("fcmovb", vec![Operand::st(0), Operand::st(7)]),
        ("fnstsw", vec![Operand::register("AX")]),
    ];
    for (name, operands) in modelled {
        let insn = Instruction::new(0, name, operands);
        assert_eq!(why(&insn), Ok(None), "{insn:?}");
        assert_eq!(Lifter::default().lift(&insn), Ok(Lifted::Modelled));
    }
}

#[test]
fn an_answer_is_a_row_s_numbers_and_words() {
    let rows = [
        (21, "the lifter does not know its name"),
        (22, "its name takes another number of operands"),
        (
            23,
            "an operand is of a kind, or a register, that its name does not take",
        ),
        (24, "the address of its memory operand is not known"),
        (
            25,
            "the width of its memory operand is not known, or its name does not take it",
        ),
    ];
    let forms = rows.map(|(number, text)| {
        let detail = Detail::of(number).expect("there is such a detail");
        assert_eq!(
            (detail.number(), detail.to_string()),
            (number, text.to_owned())
        );
        ([6, 1, 9, number], Why::Form(detail), text)
    });
    assert!(
        forms
            .map(|(_, answer, _)| answer.detail())
            .into_iter()
            .eq(Detail::ALL.map(Some))
    );
    let overflow = ([6, 2, 9, 0], Why::Overflow, "pushes onto a full stack");
    for (row, answer, text) in forms.into_iter().chain([overflow]) {
        let declined = Statement::Unsupported { answer, address: 9 };
        assert_eq!((Statement::of(row), declined.row()), (Some(declined), row));
        assert_eq!(answer.to_string(), text);
        assert_eq!(Why::of(answer.number(), row[3]), Some(answer));
    }
}

/// Of all pairs of an answer and a detail, six are those of a statement.
#[test]
fn a_row_of_another_pair_is_no_statement() {
    let pairs = [(1, 21), (1, 22), (1, 23), (1, 24), (1, 25), (2, 0)];
    for answer in 0..50 {
        for detail in (0..300).chain([1 << 32 | 21, u64::MAX]) {
            let is_pair = pairs.contains(&(answer, detail));
            assert_eq!(Why::of(answer, detail).is_some(), is_pair);
            let row = |answer| Statement::of([6, answer, 9, detail]);
            assert_eq!(row(answer.into()).is_some(), is_pair);
            assert_eq!(row(u64::from(answer) | 1 << 32), None);
        }
    }
}
