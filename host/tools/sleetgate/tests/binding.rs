//! The binding says what the library says, and turns what is out of range
//! into the numbers of the manual's section 7.

use std::collections::BTreeSet;

use sleetgate::{
    Detail, Form, Format, Instruction, Item, Lifted, Lifter, Node, Nodes, Operand, Place, Refusal,
    State, Statement, Why, check, classify, effect, evaluate, image, read_record, why,
    write_record,
};

fn insn(name: &str, operands: &[&str]) -> Instruction {
    Instruction::new(
        0,
        name,
        operands.iter().map(|&text| Operand::register(text)),
    )
}

#[test]
fn texts_and_counts_out_of_range_are_refused() {
    let mut lifter = Lifter::with_capacity(64, 64);
    for length in [33, 255, 256, 288, 1_000] {
        let text = "f".repeat(length);
        for long in [insn(&text, &[]), insn("fld", &[&text])] {
            assert_eq!(classify(&long), Err(Refusal::Text));
            assert_eq!(effect(&long), Err(Refusal::Text));
            assert_eq!(why(&long), Err(Refusal::Text));
            assert_eq!(lifter.lift(&long), Err(Refusal::Text));
            assert_eq!(write_record(&long, &mut Vec::new()), Err(Refusal::Text));
        }
    }
    for count in [4, 255, 256, 259, 300] {
        let many = insn("fld", &vec!["st(1)"; count]);
        assert_eq!(classify(&many), Err(Refusal::Shape));
        assert_eq!(effect(&many), Err(Refusal::Shape));
        assert_eq!(why(&many), Err(Refusal::Shape));
        assert_eq!(lifter.lift(&many), Err(Refusal::Shape));
        assert_eq!(write_record(&many, &mut Vec::new()), Err(Refusal::Shape));
    }
    assert_eq!(classify(&insn("fldé", &[])), Err(Refusal::Text));
    assert_eq!(lifter.state(), State::default());
}

#[test]
fn a_text_of_32_bytes_is_taken() {
    let name = format!("{}fld1", " ".repeat(28));
    let mut lifter = Lifter::with_capacity(64, 64);
    assert_eq!(lifter.lift(&insn(&name, &[])), Ok(Lifted::Modelled));
}

#[test]
fn refusals_come_in_the_order_of_the_manual() {
    let mut lifter = Lifter::with_capacity(0, 0);
    let long = "f".repeat(33);
    let four = insn(&long, &["st(1)"; 4]);
    assert_eq!(lifter.lift(&four), Err(Refusal::Shape));
    lifter.go_on_from(State {
        nodes: 1,
        ..State::default()
    });
    assert_eq!(lifter.lift(&four), Err(Refusal::State));
}

/// The kinds of these rows, each once.
fn kinds(rows: impl Iterator<Item = [u64; 4]>) -> Vec<u64> {
    let kinds: BTreeSet<u64> = rows.map(|row| row[0]).collect();
    kinds.into_iter().collect()
}

#[test]
fn every_kind_of_row_that_the_lifter_writes_is_a_node_or_a_statement() {
    let memory = |width, place| Operand::memory(width, place);
    let slot = Place::Slot {
        address: 2,
        slot: 9,
    };
    let mut lifter = Lifter::with_capacity(1_024, 256);
    let mut lift = |name: &str, operands: Vec<Operand>| {
        lifter
            .lift(&Instruction::new(1, name, operands))
            .expect("there is room")
    };
    lift("fld", vec![memory(80, Place::Address(1))]);
    lift("fild", vec![memory(32, slot)]);
    for name in [
        "faddp", "fsubp", "fmulp", "fdivp", "fsqrt", "frndint", "fabs", "fchs",
    ] {
        lift(name, vec![]);
    }
    lift("fcom", vec![]);
    lift("fnstsw", vec![Operand::register("ax")]);
    lift("fcomi", vec![Operand::st(1)]);
    lift("fcmovnbe", vec![Operand::st(0), Operand::st(1)]);
    lift("fisttp", vec![memory(16, Place::Address(3))]);
    lift("fstp", vec![memory(80, Place::Address(3))]);
    lift("fstp", vec![memory(32, Place::Address(3))]);
    assert_eq!(
        lift("fld", vec![Operand::Other]),
        Lifted::Declined(Why::Form(Detail::OperandKind))
    );
    let (nodes, statements) = (lifter.nodes(), lifter.statements());
    assert_eq!(nodes.iter().count(), nodes.len());
    assert_eq!(statements.iter().count(), statements.len());
    let of_nodes = kinds(nodes.iter().map(Node::row));
    assert_eq!(of_nodes, (1..=29).collect::<Vec<u64>>());
    let of_statements = kinds(statements.iter().map(Statement::row));
    assert_eq!(of_statements, (1..=6).collect::<Vec<u64>>());
    assert_eq!(check(nodes), Ok(()));
}

#[test]
fn overflow_is_a_decline_of_its_own() {
    let mut lifter = Lifter::with_capacity(64, 64);
    for _ in 0..8 {
        assert_eq!(lifter.lift(&insn("fld1", &[])), Ok(Lifted::Modelled));
    }
    let declined = lifter.lift(&insn("fld1", &[]));
    assert_eq!(declined, Ok(Lifted::Declined(Why::Overflow)));
    let last = lifter.statements().iter().last();
    let expected = Statement::Unsupported {
        answer: Why::Overflow,
        address: 0,
    };
    assert_eq!((last, lifter.stack()), (Some(expected), [].as_slice()));
}

/// Lift an instruction until it is refused: how often, and why.
fn refused_after(lifter: &mut Lifter, insns: &[Instruction]) -> (usize, Refusal) {
    let lifts = insns.iter().cycle().map(|insn| lifter.lift(insn));
    let refused = lifts.enumerate().find_map(|(at, l)| Some((at, l.err()?)));
    refused.expect("a room ends")
}

#[test]
fn a_default_lifter_has_the_rooms_of_the_program() {
    let push_and_drop = [insn("fldz", &[]), insn("fstp", &["st(0)"])];
    let mut lifter = Lifter::default();
    let (_, refusal) = refused_after(&mut lifter, &push_and_drop);
    assert_eq!((refusal, lifter.nodes().len()), (Refusal::NodeRoom, 1_024));
    let refused = refused_after(&mut lifter, &[insn("fsin", &[])]);
    assert_eq!(refused, (256, Refusal::StatementRoom));
}

#[test]
fn a_place_is_one_of_eight() {
    let texts = (0..8).map(|n| format!("st({n})"));
    let places: Vec<Operand> = (0..8).map(Operand::st).collect();
    assert!(texts.map(Operand::register).eq(places));
    let form = |n| classify(&Instruction::new(0, "fld", [Operand::st(n)]));
    for n in 0..8 {
        assert_eq!(form(n), Ok(Some(Form::PushSlot(n))));
    }
    for n in [8, 10, u8::MAX] {
        assert_eq!(form(n), Ok(None));
    }
}

#[test]
fn lists_are_walked_by_value_and_by_reference() {
    let mut lifter = Lifter::default();
    for name in ["fld1", "fcom", "fsin"] {
        lifter.lift(&insn(name, &[])).expect("there is room");
    }
    let (nodes, statements) = (lifter.nodes(), lifter.statements());
    let of_nodes: Vec<Node> = (&nodes).into_iter().collect();
    let of_statements: Vec<Statement> = (&statements).into_iter().collect();
    assert_eq!(of_nodes.len(), nodes.len());
    assert_eq!(of_statements.len(), statements.len());
    assert!(nodes.into_iter().eq(of_nodes.iter().copied()));
    assert!(statements.into_iter().eq(of_statements));
    assert_eq!(Node::words(&of_nodes), nodes.words());
}

#[test]
fn a_row_that_is_none_ends_a_list_for_good() {
    let words = [4, 0, 0, 0, 4, 0, 0, 1, 4, 0, 0, 0];
    let mut nodes = Nodes::new(&words).iter();
    assert_eq!(nodes.size_hint(), (0, Some(3)));
    let walked = [(); 3].map(|()| nodes.next());
    assert_eq!(walked, [Some(Node::Status), None, None]);
    assert_eq!(nodes.size_hint(), (0, Some(0)));
}

#[test]
fn rooms_are_at_most_65535() {
    let mut lifter = Lifter::with_capacity(usize::MAX, usize::MAX);
    let full = State {
        nodes: 65_535,
        ..State::default()
    };
    lifter.go_on_from(full);
    assert_eq!(lifter.lift(&insn("fld1", &[])), Err(Refusal::NodeRoom));
}

#[test]
fn views_of_a_state_that_is_not_valid_do_not_panic() {
    let mut lifter = Lifter::with_capacity(1, 1);
    lifter.go_on_from(State {
        depth: u64::MAX,
        nodes: u64::MAX,
        statements: 7,
        ..State::default()
    });
    assert_eq!(lifter.stack().len(), 8);
    assert_eq!((lifter.nodes().len(), lifter.statements().len()), (1, 1));
}

#[test]
fn columns_and_images_are_measured() {
    let words = Node::words(&[Node::Status, Node::BvToFp(0, Format::Single)]);
    let nodes = Nodes::new(&words);
    assert_eq!(evaluate(nodes, &[0]), Err(Refusal::Short));
    assert_eq!(evaluate(nodes, &[0, 0]), Err(Refusal::Sort { node: 1 }));
    let one = Nodes::new(&words[..4]);
    assert_eq!(evaluate(one, &[1 << 16]), Err(Refusal::Wide { node: 0 }));
    assert_eq!(evaluate(one, &[0xffff]), Ok(vec![0xffff]));
    let many = vec![0; 4 * 65_536];
    assert_eq!(check(Nodes::new(&many)), Err(Refusal::Short));
    assert_eq!(
        image::read(&[0; 10], 1 << 79),
        Err(Refusal::Wide { node: 0 })
    );
    assert_eq!(image::read(&[], 1 << 79), Err(Refusal::Short));
}

#[test]
fn records_go_there_and_back() {
    let operands = [
        Operand::memory(80, Place::Unknown),
        Operand::memory(
            16,
            Place::Slot {
                address: 3,
                slot: 4,
            },
        ),
        Operand::Other,
    ];
    let insn = Instruction::new(u64::MAX, "FLD", operands);
    let mut bytes = vec![9];
    write_record(&insn, &mut bytes).expect("it has a record");
    let next = bytes.len();
    assert_eq!(read_record(&bytes, 1), Ok(Item::Record { insn, next }));
    let refused = read_record(&bytes, next).expect_err("there is no end mark");
    assert_eq!((refused.refusal, refused.place), (Refusal::EndsEarly, next));
    assert_eq!(
        refused.to_string(),
        format!("refused (12): the bytes end early, at byte {next}")
    );
}
