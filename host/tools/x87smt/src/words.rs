//! What a reader of a text has to know.

use std::ops::Range;

use sleetgate::{Flag, Node, Statement};

use crate::run::{Run, Step};

/// The sentences for the text of a root.
pub fn words(run: &Run, root: u64) -> Vec<String> {
    let formula = Needed::of(run, root);
    let mut words: Vec<String> = run.steps.iter().filter_map(decline).collect();
    words.extend(constants(run, &formula));
    words.extend(twice(&formula));
    words.extend(general(&formula));
    words
}

/// The nodes that a root needs, with their numbers.
struct Needed(Vec<(usize, Node)>);

impl Needed {
    fn of(run: &Run, root: u64) -> Self {
        let nodes: Vec<Node> = run.nodes().iter().collect();
        let mut marks = vec![false; nodes.len()];
        let place = |node: u64| usize::try_from(node).unwrap_or(usize::MAX);
        if let Some(mark) = marks.get_mut(place(root)) {
            *mark = true;
        }
        for node in (0..nodes.len()).rev() {
            if marks[node] {
                for operand in nodes[node].operands() {
                    marks[place(operand)] = true;
                }
            }
        }
        let needed = nodes.into_iter().enumerate();
        Self(needed.filter(|(at, _)| marks[*at]).collect())
    }

    fn has(&self, wanted: impl Fn(&Node) -> bool) -> bool {
        self.0.iter().any(|(_, node)| wanted(node))
    }

    fn contains(&self, number: usize) -> bool {
        self.0.iter().any(|(at, _)| *at == number)
    }
}

/// The name of a declared node.
fn name(number: usize, node: Node) -> String {
    let [kind, a, ..] = node.row();
    format!("x{number}_{kind}_{a}")
}

/// That a record is not in the text.
fn decline(step: &Step) -> Option<String> {
    let why = step.declined?;
    let (name, address) = (step.mnemonic.escape_default(), step.address);
    Some(format!(
        "{name} at {address:x} is declined: {why}; what it does is in no formula, and the stack \
         is forgotten there"
    ))
}

/// What each constant of the text stands for, and where the formula begins
/// behind a decline.
fn constants(run: &Run, formula: &Needed) -> Vec<String> {
    let nodes: Vec<Node> = run.nodes().iter().collect();
    let mut words = Vec::new();
    let (mut place, mut last_decline): (u32, Option<&Step>) = (0, None);
    for step in &run.steps {
        for number in step.nodes.clone() {
            let node = nodes[number];
            let stack = is_of_stack(&nodes, number, step);
            if formula.contains(number)
                && let Some(what) = stands_for(run, step, node, stack, (place, last_decline))
            {
                words.push(format!("{} is {what}", name(number, node)));
            }
            place += u32::from(stack);
        }
        if step.declined.is_some() {
            (place, last_decline) = (0, Some(step));
        }
    }
    words
}

/// Whether a node is an input that stands for a place of the stack. The free
/// pattern of an 80-bit image stands directly behind the image.
fn is_of_stack(nodes: &[Node], number: usize, step: &Step) -> bool {
    let loaded = number > step.nodes.start
        && matches!(
            nodes[number - 1],
            Node::Temporary { bits: 80, .. } | Node::Slot { bits: 80, .. }
        );
    matches!(nodes[number], Node::Input { bits: 79, .. }) && !loaded
}

/// What a declared node stands for, where the stack was last unknown behind
/// that decline or on entry, and so many of its places were named since.
fn stands_for(
    run: &Run,
    step: &Step,
    node: Node,
    of_stack: bool,
    (place, decline): (u32, Option<&Step>),
) -> Option<String> {
    let at = step.address;
    Some(match node {
        Node::Input { .. } if of_stack => match decline {
            None => format!(
                "what stood at place {place} of the stack before the first record; nobody knows it"
            ),
            Some(decline) => format!(
                "what stood at place {place} of the stack behind the decline at {:x}; nobody knows \
                 it, and what was computed before the decline is not in the text",
                decline.address
            ),
        },
        Node::Input { bits: 16, .. } => {
            format!("what the compare at {at:x} leaves in the status word; nobody knows it")
        }
        Node::Input { .. } => {
            format!("any pattern, for the case that the 80 bits loaded at {at:x} hold no number")
        }
        Node::Temporary { .. } => format!("{} at {at:x}", loaded(run, step)),
        Node::Slot { number, .. } => format!("slot {number}, {} at {at:x}", loaded(run, step)),
        Node::Status => format!(
            "the status word as it is at {at:x}; {}",
            set(run, step, None)
        ),
        Node::Flag(flag) => format!("{flag} as it is at {at:x}; {}", set(run, step, Some(flag))),
        _ => return None,
    })
}

/// What a record loads.
fn loaded(run: &Run, step: &Step) -> String {
    let mut own = statements(run, step.statements.clone());
    let load = own.find_map(|(_, statement)| match statement {
        Statement::Load { address, bits, .. } => Some((address, bits)),
        _ => None,
    });
    match load {
        Some((address, bits)) => format!("the {bits} bits at address number {address}, as loaded"),
        None => "what is loaded".to_owned(),
    }
}

/// Some statements with their numbers.
fn statements(
    run: &Run,
    range: Range<usize>,
) -> impl DoubleEndedIterator<Item = (usize, Statement)> {
    let all: Vec<Statement> = run.statements().iter().collect();
    range.map(move |at| (at, all[at]))
}

/// Which statement before a record set a flag last, or the status word.
fn set(run: &Run, step: &Step, flag: Option<Flag>) -> String {
    let before = statements(run, 0..step.statements.start).rev();
    let mut telling = before.filter_map(|(at, statement)| match statement {
        Statement::Status { node } if flag.is_none() => Some(format!(
            "statement {at} sets it to node {node}, which the text does not say"
        )),
        Statement::Flag { flag: set, node } if flag == Some(set) => Some(format!(
            "statement {at} sets it to node {node}, which the text does not say"
        )),
        Statement::Unsupported { address, .. } => {
            Some(format!("what is declined at {address:x} may have set it"))
        }
        _ => None,
    });
    let none = "nothing that was lifted sets it".to_owned();
    telling.next().unwrap_or(none)
}

/// That two constants are one variable at two times.
fn twice(formula: &Needed) -> Vec<String> {
    let variable = |node: &Node| match node {
        Node::Slot { number, .. } => Some(format!("slot {number}")),
        Node::Status => Some("the status word".to_owned()),
        Node::Flag(flag) => Some(flag.to_string()),
        _ => None,
    };
    let mut words = Vec::new();
    let named = formula
        .0
        .iter()
        .filter_map(|&(at, node)| Some((at, node, variable(&node)?)));
    let named: Vec<(usize, Node, String)> = named.collect();
    for (place, (at, node, variable)) in named.iter().enumerate() {
        let earlier = named[..place]
            .iter()
            .rev()
            .find(|(.., other)| other == variable);
        if let Some((before, other, _)) = earlier {
            words.push(format!(
                "{} and {} are both {variable}, at two times: to a solver they are two constants, \
                 and equal only if that is asserted",
                name(*before, *other),
                name(*at, *node)
            ));
        }
    }
    words
}

/// What holds of every text with such nodes.
fn general(formula: &Needed) -> Vec<String> {
    let mut words = Vec::new();
    if formula.has(|node| matches!(node, Node::FpToIeeeBv(_))) {
        words.push(
            "a constant x.._26_.. is the pattern of a float; of NaN it may be any pattern, so \
             that unsat holds of the lifted code, and sat need not"
                .to_owned(),
        );
    }
    if formula.has(|node| matches!(node, Node::FpToSbv(..))) {
        words.push(
            "fp.to_sbv of NaN and of a number that does not fit is left open by SMT-LIB; the \
             processor stores the lowest integer"
                .to_owned(),
        );
    }
    let rounds = |node: &Node| {
        let arithmetic = matches!(
            node,
            Node::FAdd(..) | Node::FSub(..) | Node::FMul(..) | Node::FDiv(..) | Node::FSqrt(..)
        );
        let converts = matches!(
            node,
            Node::FRoundToIntegral(..) | Node::FpToSbv(..) | Node::FpToFp(..)
        );
        arithmetic || converts
    };
    if formula.has(rounds) {
        words.push(
            "arithmetic rounds as after a reset of the control word: to nearest even, with 64 \
             bits of precision"
                .to_owned(),
        );
    }
    words
}
