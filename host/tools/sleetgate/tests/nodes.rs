//! What the binding says of nodes by itself: their operands, text, order
//! and sorts.

use std::collections::BTreeSet;

use sleetgate::{Flag, Format, Node, Nodes, Refusal, Sort, check};

/// A row of each kind, the operands of its node and its text.
const KINDS: [([u64; 4], &[u64], &str); 29] = [
    ([1, 3, 79, 0], &[], "Input(3, 79 bits)"),
    ([2, 4, 80, 0], &[], "Temporary(4, 80 bits)"),
    ([3, 5, 16, 0], &[], "Slot(5, 16 bits)"),
    ([4, 0, 0, 0], &[], "Status"),
    ([5, 1, 0, 0], &[], "Flag(PF)"),
    ([6, 10, 1, 1], &[], "Constant(0x1000000000000000a, 1 bit)"),
    ([7, 9, 8, 0], &[9, 8], "And(9, 8)"),
    ([8, 9, 8, 0], &[9, 8], "Xor(9, 8)"),
    ([9, 9, 8, 0], &[9, 8], "Eq(9, 8)"),
    ([10, 9, 8, 0], &[9, 8], "BoolAnd(9, 8)"),
    ([11, 9, 8, 0], &[9, 8], "BoolOr(9, 8)"),
    ([12, 9, 0, 0], &[9], "BoolNot(9)"),
    ([13, 9, 7, 8], &[9, 7, 8], "Ite(9, 7, 8)"),
    ([14, 9, 63, 1], &[9], "Extract(9, 63..1)"),
    ([15, 9, 8, 0], &[9, 8], "Concat(9, 8)"),
    ([16, 9, 8, 0], &[9, 8], "FAdd(9, 8, nearest even)"),
    ([17, 9, 8, 1], &[9, 8], "FSub(9, 8, toward zero)"),
    ([18, 9, 8, 0], &[9, 8], "FMul(9, 8, nearest even)"),
    ([19, 9, 8, 1], &[9, 8], "FDiv(9, 8, toward zero)"),
    ([20, 9, 8, 0], &[9, 8], "FEq(9, 8)"),
    ([21, 9, 8, 0], &[9, 8], "FLt(9, 8)"),
    ([22, 9, 0, 0], &[9], "FIsNaN(9)"),
    ([23, 9, 0, 0], &[9], "FSqrt(9, nearest even)"),
    ([24, 9, 1, 0], &[9], "FRoundToIntegral(9, toward zero)"),
    ([25, 9, 0, 2072], &[9], "BvToFp(9, single)"),
    ([26, 9, 0, 0], &[9], "FpToIeeeBv(9)"),
    ([27, 9, 1, 32], &[9], "FpToSbv(9, toward zero, 32 bits)"),
    ([28, 9, 0, 3904], &[9], "SbvToFp(9, nearest even, extended)"),
    ([29, 9, 0, 2869], &[9], "FpToFp(9, nearest even, double)"),
];

fn node(row: [u64; 4]) -> Node {
    Node::of(row).expect("a node")
}

#[test]
fn each_kind_has_its_operands_and_its_text() {
    for (row, operands, text) in KINDS {
        let node = node(row);
        assert!(node.operands().eq(operands.iter().copied()), "{node:?}");
        assert_eq!(node.operands().len(), operands.len());
        assert_eq!(node.to_string(), text);
        assert!(text.starts_with(node.name()));
    }
}

#[test]
fn a_text_is_brought_to_a_width() {
    assert_eq!(
        format!("{:8}|{:>6}|", Node::Status, Node::Eq(0, 1)),
        "Status  |Eq(0, 1)|"
    );
    assert_eq!(format!("{:>7}|", Sort::Bits(1)), "  1 bit|");
    assert_eq!(format!("{:7}|", Sort::Float(Format::Single)), "single |");
}

#[test]
fn nodes_are_ordered_by_kind_then_by_fields() {
    let nodes = KINDS.map(|(row, ..)| node(row));
    assert!(nodes.is_sorted_by(|a, b| a < b));
    let backwards: BTreeSet<Node> = nodes.into_iter().rev().collect();
    assert!(backwards.into_iter().eq(nodes));
    let rows = [
        [5, 0, 0, 0],
        [5, 2, 0, 0],
        [16, 1, 2, 1],
        [16, 2, 1, 0],
        [16, 2, 1, 1],
        [25, 1, 0, 2072],
        [25, 1, 0, 2869],
        [25, 1, 0, 3904],
        [27, 1, 0, 64],
        [27, 1, 1, 16],
    ];
    assert!(rows.map(node).is_sorted_by(|a, b| a < b));
}

#[test]
fn constants_are_ordered_by_value() {
    let [small, large] = [[6, 9, 0, 80], [6, 0, 1, 79]];
    assert!(small > large);
    assert!(node(small) < node(large));
}

/// A list of this length in which each node but the first has the one
/// before it twice.
fn doubled(length: u64) -> Vec<u64> {
    let first = Node::Input {
        number: 0,
        bits: 79,
    };
    let rest = (1..length).map(|n| Node::Xor(n - 1, n - 1));
    let nodes: Vec<Node> = [first].into_iter().chain(rest).collect();
    Node::words(&nodes)
}

#[test]
fn the_sort_of_the_last_of_many_nodes_is_found() {
    let words = doubled(65_536);
    let most = Nodes::new(&words[..4 * 65_535]);
    assert_eq!(check(most), Ok(()));
    assert_eq!(most.sort(65_534), Some(Sort::Bits(79)));
    assert_eq!((most.sort(65_535), most.sort(u64::MAX)), (None, None));
    let more = Nodes::new(&words);
    assert_eq!(check(more), Err(Refusal::Short));
    assert_eq!(more.sorts(), vec![Sort::Bits(79); 65_536]);
}

#[test]
fn no_node_behind_a_fault_has_a_sort() {
    let words = Node::words(&[Node::Status, Node::BoolNot(0), Node::Status]);
    let nodes = Nodes::new(&words);
    assert_eq!(check(nodes), Err(Refusal::Sort { node: 1 }));
    assert_eq!(
        [0, 1, 2].map(|n| nodes.sort(n)),
        [Some(Sort::Bits(16)), None, None]
    );
    let no_row = [4, 0, 0, 0, 99, 0, 0, 0, 4, 0, 0, 0];
    assert_eq!(Nodes::new(&no_row).sorts(), [Sort::Bits(16)]);
}

#[test]
fn sorts_that_no_list_has_are_taken_too() {
    let wide = [Sort::Bits(u32::MAX)];
    assert_eq!(Node::Concat { high: 0, low: 0 }.sort(&wide), None);
    let all = Node::Extract {
        source: 0,
        hi: 80,
        lo: 0,
    };
    assert_eq!(all.sort(&wide), None);
    assert_eq!(Node::Flag(Flag::OF).sort(&wide), None);
}
