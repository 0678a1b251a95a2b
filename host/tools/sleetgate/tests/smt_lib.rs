//! Formulas as SMT-LIB text.

use sleetgate::{Instruction, Lifter, Node, Nodes, Operand, Place, Refusal, smt_lib};

/// A lift of `fld` of 80 bits, `fadd st(1)` and `fstp` of 32 bits.
fn lifted() -> Lifter {
    let memory = |width, address| Operand::memory(width, Place::Address(address));
    let mut lifter = Lifter::default();
    for (name, operand) in [
        ("fld", memory(80, 1)),
        ("fadd", Operand::st(1)),
        ("fstp", memory(32, 2)),
    ] {
        let insn = Instruction::new(0, name, [operand]);
        lifter.lift(&insn).expect("there is room");
    }
    lifter
}

/// The text of a sum (P6 of the manual, section 10).
const SUM: &str = "\
(declare-fun x0_1_0 () (_ BitVec 79))
(declare-fun x1_1_1 () (_ BitVec 79))
(declare-fun x5_26_4 () (_ BitVec 79))
(define-fun n2 () (_ FloatingPoint 15 64) ((_ to_fp 15 64) x1_1_1))
(define-fun n3 () (_ FloatingPoint 15 64) ((_ to_fp 15 64) x0_1_0))
(define-fun n4 () (_ FloatingPoint 15 64) (fp.add RNE n2 n3))
(assert (= ((_ to_fp 15 64) x5_26_4) n4))
";

fn sum() -> Lifter {
    let mut lifter = Lifter::default();
    let insn = Instruction::new(16, "faddp", []);
    lifter.lift(&insn).expect("there is room");
    lifter
}

#[test]
fn a_sum_is_written() {
    assert_eq!(smt_lib::write(sum().nodes(), 5), Ok(SUM.to_owned()));
    let first = SUM.lines().next().map(|line| format!("{line}\n"));
    assert_eq!(smt_lib::write(sum().nodes(), 0).ok(), first);
}

#[test]
fn roots_and_lists_are_refused_in_order() {
    assert_eq!(smt_lib::write(sum().nodes(), 6), Err(Refusal::Root));
    assert_eq!(smt_lib::write(sum().nodes(), u64::MAX), Err(Refusal::Root));
    assert_eq!(smt_lib::write(Nodes::new(&[]), 0), Err(Refusal::Root));
    let faulty = Node::words(&[Node::Status, Node::BoolNot(0)]);
    let refused = smt_lib::write(Nodes::new(&faulty), 9);
    assert_eq!(refused, Err(Refusal::Sort { node: 1 }));
    let many = vec![0; 4 * 65_536];
    assert_eq!(smt_lib::write(Nodes::new(&many), 0), Err(Refusal::Short));
}

/// However long the lines are, more is lent.
#[test]
fn a_text_of_long_lines_is_written() {
    let slot = Node::Slot {
        number: u64::MAX,
        bits: 80,
    };
    let choice = |then| Node::Ite {
        condition: 1,
        then,
        otherwise: 0,
    };
    let mut nodes = vec![slot, Node::Eq(0, 0), choice(0)];
    nodes.extend((2..1_999).map(choice));
    let words = Node::words(&nodes);
    let text = smt_lib::write(Nodes::new(&words), 1_999).expect("it is written");
    assert_eq!(text.lines().count(), 2_000);
    assert!(text.len() > 150_000, "{}", text.len());
}

#[test]
fn what_is_written_is_read() {
    let sum = sum();
    let nodes: Vec<Node> = sum.nodes().iter().collect();
    assert_eq!(smt_lib::read(SUM), Ok(nodes));
    let lifted = lifted();
    for root in 0..lifted.nodes().len() as u64 {
        let text = smt_lib::write(lifted.nodes(), root).expect("it is written");
        let read = smt_lib::read(&text).expect("it is read");
        assert_eq!(
            read.last().map(|node| node.name()),
            lifted.nodes().get(root).map(Node::name)
        );
        let words = Node::words(&read);
        let again = smt_lib::write(Nodes::new(&words), read.len() as u64 - 1);
        let again = smt_lib::read(again.expect("it is written"));
        assert_eq!(again, Ok(read));
    }
}

#[test]
fn bytes_that_are_no_text_have_a_place() {
    for (bytes, place) in [
        (&b""[..], 0),
        (b"(declare", 8),
        (b"\xff", 0),
        (b"(define-fun n0 () (_ BitVec 81)", 29),
    ] {
        let refused = smt_lib::read(bytes).expect_err("it is no text");
        assert_eq!(refused, Refusal::Syntax { place });
        let words = format!("refused (41): not a text of the subset, at byte {place}");
        assert_eq!(refused.to_string(), words);
    }
}
