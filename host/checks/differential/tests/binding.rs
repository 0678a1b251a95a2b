//! The typed binding, compared with the calls below it: an instruction as
//! the binding has it and as its bytes are one and the same. Its sorts of
//! nodes are compared with the plain table and with the proved check.

use std::collections::BTreeSet;

use differential::checks;
use differential::formulas::random;
use differential::instructions::Grid;
use differential::rng::Rng;
use differential::sequences::Profile;
use plain::sorts::sorts;
use plain::state::{DEPTH, NODES, ROW, STATE, STATEMENTS};
use plain::values::words as words_of;
use sleetgate::{
    Detail, Form, Format, Instruction, Lifted, Lifter, Node, Nodes, Operand, Place, Refusal, Sort,
    Source, check, classify, effect, why,
};

/// Rows that each list is lent.
const ROOM: usize = 400;

/// The instruction as the binding has it, if it can be said there: kinds
/// and flags out of range, and texts that are no UTF-8, cannot.
fn typed(insn: &plain::Instruction) -> Option<Instruction> {
    let text = |text: &plain::Text| String::from_utf8(text.used().to_vec()).ok();
    let whole = |t: &plain::Text| usize::from(t.len) <= plain::TEXT;
    let operands = insn.used().iter().map(|operand| match operand.kind {
        plain::REGISTER if whole(&operand.text) => text(&operand.text).map(Operand::Register),
        plain::MEMORY => {
            let (address, slot) = (operand.address, operand.slot);
            let place = match (operand.known, slot) {
                (0, _) => Place::Unknown,
                (1, 0) => Place::Address(address),
                (1, slot) => Place::Slot { address, slot },
                _ => return None,
            };
            Some(Operand::memory(operand.width, place))
        }
        plain::OTHER => Some(Operand::Other),
        _ => None,
    });
    let operands: Option<Vec<Operand>> = operands.collect();
    let counted = usize::from(insn.count) <= plain::OPERANDS && whole(&insn.mnemonic);
    let name = text(&insn.mnemonic).filter(|_| counted)?;
    Some(Instruction::new(insn.address, name, operands?))
}

/// The lift by the calls below the binding.
struct Raw {
    state: [u64; STATE],
    nodes: Vec<u64>,
    statements: Vec<u64>,
}

impl Raw {
    fn fresh() -> Self {
        Self {
            state: [0; STATE],
            nodes: vec![0; ROOM * ROW],
            statements: vec![0; ROOM * ROW],
        }
    }

    /// The answer, and the detail.
    fn lift(&mut self, insn: &plain::Instruction) -> (u32, u64) {
        let (nodes, statements) = (&mut self.nodes, &mut self.statements);
        let (flat, mut out) = (insn.to_flat(), [0; sleetgate_sys::DETAIL]);
        let number = sleetgate_sys::lift(&flat, &mut self.state, nodes, statements, &mut out);
        (number, out[0])
    }

    /// Whether the binding's lift has the same state and lists.
    fn is(&self, lifter: &Lifter) -> bool {
        let words = |list: &[u64], at: usize| {
            let rows = usize::try_from(self.state[at]).expect("in memory");
            list[..rows * ROW].to_vec()
        };
        let depth = usize::try_from(self.state[DEPTH]).expect("at most 8");
        lifter.stack() == &self.state[..depth]
            && lifter.nodes().words() == words(&self.nodes, NODES)
            && lifter.statements().words() == words(&self.statements, STATEMENTS)
            && lifter.nodes().iter().count() == lifter.nodes().len()
            && lifter.statements().iter().count() == lifter.statements().len()
    }
}

/// The answer of a lift, and the detail.
fn lifted_told(lifted: Result<Lifted, Refusal>) -> (u32, u64) {
    match lifted {
        Ok(Lifted::Modelled) => (0, 0),
        Ok(Lifted::Declined(why)) => (why.number(), why.detail().map_or(0, Detail::number)),
        Err(refusal) => (refusal.number(), 0),
    }
}

/// The answer of `why`, and the detail.
fn why_told(detail: Result<Option<Detail>, Refusal>) -> (u32, u64) {
    match detail {
        Err(refusal) => (refusal.number(), 0),
        Ok(None) => (0, 0),
        Ok(Some(detail)) => (1, detail.number()),
    }
}

/// How many instructions of some sequences were compared, and how many
/// differed, where the binding is handed what `change` makes of each.
fn compared(change: fn(Instruction) -> Instruction) -> (u32, u32) {
    let (grid, mut rng) = (Grid::default(), Rng::new(5));
    let (mut all, mut different) = (0, 0);
    for _ in 0..200 {
        let profile = Profile::random(&mut rng);
        let (mut raw, mut lifter) = (Raw::fresh(), Lifter::with_capacity(ROOM, ROOM));
        for _ in 0..profile.length {
            let depth = lifter.stack().len();
            let insn = profile.next(&grid, &mut rng, depth);
            let Some(typed) = typed(&insn).map(change) else {
                continue;
            };
            let mut form = [0; sleetgate_sys::FORM];
            let classified = sleetgate_sys::classify(&insn.to_flat(), &mut form);
            let mut flags = [0; sleetgate_sys::EFFECT];
            let effected = sleetgate_sys::effect(&insn.to_flat(), &mut flags);
            let mut detail = [0; sleetgate_sys::DETAIL];
            let explained = sleetgate_sys::why(&insn.to_flat(), &mut detail);
            let same = told(classify(&typed)) == (classified, form)
                && effect_told(effect(&typed)) == (effected, flags)
                && why_told(why(&typed)) == (explained, detail[0])
                && lifted_told(lifter.lift(&typed)) == raw.lift(&insn)
                && raw.is(&lifter);
            all += 1;
            if !same {
                different += 1;
                break;
            }
        }
    }
    (all, different)
}

/// The answer of `classify`, and the form's words.
fn told(form: Result<Option<Form>, Refusal>) -> (u32, [u64; sleetgate_sys::FORM]) {
    match form {
        Err(refusal) => (refusal.number(), [0; 8]),
        Ok(None) => (1, [0; 8]),
        Ok(Some(form)) => (0, words(form)),
    }
}

/// The words of a form, from the manual's numbers for its parts (section
/// 2).
fn words(form: Form) -> [u64; sleetgate_sys::FORM] {
    let first = match form {
        Form::PushConst(bits) => [&[1], words_of(bits).as_slice()].concat(),
        Form::PushMemory { width, format } => vec![2, width.into(), format as u64],
        Form::PushSlot(index) => vec![3, index.into()],
        Form::StoreMemory {
            width,
            format,
            pop,
            rounding,
        } => vec![4, width.into(), format as u64, pop.into(), rounding as u64],
        Form::StoreSlot { index, pop } => vec![5, index.into(), pop.into()],
        Form::Arith {
            op,
            dst,
            src,
            reversed,
            pop,
        } => {
            let [kind, which, format] = source(src);
            let (reversed, pop) = (reversed.into(), pop.into());
            vec![6, op as u64, dst.into(), kind, which, format, reversed, pop]
        }
        Form::CompareStatus { src, pops } => {
            let [kind, which, format] = source(src);
            vec![7, kind, which, format, pops.into()]
        }
        Form::CompareFlags { src, pop } => vec![8, src.into(), pop.into()],
        Form::ConditionalMove { src, condition } => vec![9, src.into(), condition as u64],
        Form::StoreStatus => vec![10],
        Form::Exchange(index) => vec![11, index.into()],
        Form::Unary(op) => vec![12, op as u64],
    };
    let mut words = [0; sleetgate_sys::FORM];
    words[..first.len()].copy_from_slice(&first);
    words
}

/// Kind, place or width, and format of a source.
fn source(source: Source) -> [u64; 3] {
    match source {
        Source::Slot(index) => [0, index.into(), 0],
        Source::Memory { width, format } => [1, width.into(), format as u64],
    }
}

/// The answer of `effect`, and its words.
fn effect_told(
    effect: Result<Option<sleetgate::Effect>, Refusal>,
) -> (u32, [u64; sleetgate_sys::EFFECT]) {
    match effect {
        Err(refusal) => (refusal.number(), [0; 7]),
        Ok(None) => (1, [0; 7]),
        Ok(Some(e)) => {
            let flags = [
                e.defines_stack,
                e.defines_status,
                e.uses_stack,
                e.uses_status,
                e.defines_flags,
                e.reads_flags,
                e.writes_ax,
            ];
            (0, flags.map(u64::from))
        }
    }
}

#[test]
fn the_binding_lifts_as_the_calls_below_it() {
    assert!(sleetgate_sys::at_hand(), "{}", sleetgate_sys::MISSING);
    let (all, different) = compared(|insn| insn);
    println!("compared {all}");
    assert!(all > 10_000, "{all}");
    assert_eq!(different, 0);
}

#[test]
fn a_binding_with_a_fault_is_reported() {
    assert!(sleetgate_sys::at_hand(), "{}", sleetgate_sys::MISSING);
    let faults: [fn(Instruction) -> Instruction; 4] = [
        |mut insn| {
            insn.operands.reverse();
            insn
        },
        |mut insn| {
            insn.address = insn.address.wrapping_add(1);
            insn
        },
        |mut insn| {
            for operand in &mut insn.operands {
                if let Operand::Memory { place, .. } = operand
                    && let Place::Slot { address, .. } = *place
                {
                    *place = Place::Address(address);
                }
            }
            insn
        },
        |mut insn| {
            insn.mnemonic.push('p');
            insn
        },
    ];
    for (number, fault) in faults.into_iter().enumerate() {
        assert!(compared(fault).1 > 0, "fault {number}");
    }
}

/// The sorts of a list by the plain table, up to the first node without
/// one.
fn plain_sorts(nodes: &[u64]) -> Vec<Sort> {
    let first = |count| sorts(nodes, count);
    let all = first(nodes.len() / ROW);
    let known = all.or_else(|fault| first(usize::try_from(fault.node).expect("in memory")));
    let known = known.expect("the nodes before the first fault have sorts");
    known.into_iter().map(typed_sort).collect()
}

fn typed_sort(sort: plain::sorts::Sort) -> Sort {
    const FORMATS: [Format; 3] = [Format::Single, Format::Double, Format::Extended];
    match sort {
        plain::sorts::Sort::Bits(width) => Sort::Bits(u32::try_from(width).expect("at most 80")),
        plain::sorts::Sort::Float(format) => {
            let alike = FORMATS.iter().find(|f| f.number() == format.number());
            Sort::Float(*alike.expect("one of the three"))
        }
    }
}

/// What the proved check says of a list with these sorts.
fn verdict(nodes: Nodes<'_>, sorts: &[Sort]) -> Result<(), Refusal> {
    if sorts.len() == nodes.len() {
        return Ok(());
    }
    Err(Refusal::Sort { node: sorts.len() })
}

/// A comparison of sorts.
#[derive(Default)]
struct Sorted {
    lists: u32,
    different: u32,
    /// Kinds of nodes that had a sort, and of first nodes that had none.
    passed: BTreeSet<u64>,
    faulty: BTreeSet<u64>,
}

/// Random lists, half of them damaged, where the binding's sorts are what
/// `of` says.
fn sorts_compared(of: fn(Nodes<'_>) -> Vec<Sort>) -> Sorted {
    let (grid, mut rng) = (Grid::default(), Rng::new(6));
    let mut all = Sorted::default();
    for _ in 0..20_000 {
        let words = checks::case(&grid, &mut rng).nodes;
        let (nodes, found) = (Nodes::new(&words), of(Nodes::new(&words)));
        let any = rng.below(nodes.len() + 1);
        let same = found == plain_sorts(&words)
            && check(nodes) == verdict(nodes, &found)
            && nodes.sort(any as u64) == found.get(any).copied();
        let mut kinds = words.chunks_exact(ROW).map(|row| row[0]);
        all.lists += 1;
        all.different += u32::from(!same);
        all.passed.extend(kinds.by_ref().take(found.len()));
        all.faulty.extend(kinds.next());
    }
    all
}

#[test]
fn the_binding_s_sorts_are_those_of_the_table_and_of_the_check() {
    assert!(sleetgate_sys::at_hand(), "{}", sleetgate_sys::MISSING);
    let all = sorts_compared(|nodes| nodes.sorts());
    let kinds: BTreeSet<u64> = (1..=29).collect();
    println!("compared {} lists", all.lists);
    assert_eq!(all.passed, kinds);
    assert!(all.faulty.is_superset(&kinds), "{:?}", all.faulty);
    assert_eq!(all.different, 0);
}

/// The sorts of a list, with one sort taken for another.
fn changed(nodes: Nodes<'_>, from: Sort, to: Sort) -> Vec<Sort> {
    let sorts = nodes.sorts().into_iter();
    sorts.map(|s| if s == from { to } else { s }).collect()
}

#[test]
fn sorts_with_a_fault_are_reported() {
    assert!(sleetgate_sys::at_hand(), "{}", sleetgate_sys::MISSING);
    let faults: [fn(Nodes<'_>) -> Vec<Sort>; 4] = [
        |nodes| vec![Sort::Bits(1); nodes.len()],
        |nodes| nodes.sorts().into_iter().skip(1).collect(),
        |nodes| changed(nodes, Sort::Bits(80), Sort::Bits(79)),
        |nodes| changed(nodes, Sort::Float(Format::Double), Sort::Bits(64)),
    ];
    for (number, fault) in faults.into_iter().enumerate() {
        assert!(sorts_compared(fault).different > 0, "fault {number}");
    }
}

/// The row of a node, but a constant's high word first.
fn key(node: &Node) -> [u64; ROW] {
    match node.row() {
        [6, low, high, bits] => [6, high, low, bits],
        row => row,
    }
}

#[test]
fn nodes_are_ordered_as_their_rows_and_no_two_have_one_text() {
    let mut rng = Rng::new(7);
    let words = random(&mut rng, 20_000).nodes;
    let mut nodes: Vec<Node> = Nodes::new(&words).iter().collect();
    nodes.sort_unstable();
    assert!(nodes.is_sorted_by_key(key));
    nodes.dedup();
    let texts: BTreeSet<String> = nodes.iter().map(Node::to_string).collect();
    assert_eq!(texts.len(), nodes.len());
    assert!(nodes.len() > 10_000, "{}", nodes.len());
}
