//! Texts, and what is told of them.

#![allow(dead_code)]

use notes::What;
use sleetgate::{Instruction, Item, Operand, Place, read_record};
use x87rec::{Options, Take, Translated, translate};

/// What becomes of a text, with these options.
pub fn with(text: &str, options: &Options) -> Translated {
    translate(text, options).expect("the text is right")
}

pub fn records(text: &str) -> Translated {
    with(text, &Options::default())
}

/// The way on which these jumps are taken each time.
pub fn path(taken: &[u64]) -> Options {
    let always = |&address: &u64| Take {
        address,
        decisions: None,
    };
    Options {
        path: Some(taken.iter().map(always).collect()),
        ..Options::default()
    }
}

/// The instructions of the records.
pub fn instructions(translated: &Translated) -> Vec<Instruction> {
    let read = |bytes: &[u8]| match read_record(bytes, 0) {
        Ok(Item::Record { insn, .. }) => insn,
        other => panic!("{other:?} is no record"),
    };
    let records = translated.notes.records();
    records.map(|(_, record)| read(&record.bytes)).collect()
}

/// Their names.
pub fn named(translated: &Translated) -> Vec<String> {
    let names = instructions(translated).into_iter();
    names.map(|insn| insn.mnemonic).collect()
}

/// The places of the first operands that are memory, as texts.
pub fn places(translated: &Translated) -> Vec<String> {
    let text = |insn: Instruction| match insn.operands.first() {
        Some(Operand::Memory { place, .. }) => match place {
            Place::Unknown => Some("unknown".to_owned()),
            Place::Address(address) | Place::Slot { address, .. } => {
                let text = translated.notes.address(u64::from(*address));
                Some(text.expect("it is named").to_owned())
            }
        },
        _ => None,
    };
    instructions(translated)
        .into_iter()
        .filter_map(text)
        .collect()
}

/// The words of remarks and of shown stacks, with their addresses.
pub fn remarks(translated: &Translated) -> Vec<String> {
    let events = translated.notes.events.iter();
    let words = events.filter_map(|event| match &event.what {
        What::Remark(words) | What::Stack(words) => Some(format!("{:x} {words}", event.address)),
        _ => None,
    });
    words.collect()
}

/// Why records are made to be declined, by name.
pub fn reasons(translated: &Translated) -> Vec<String> {
    let records = translated.notes.records();
    let why = records.filter_map(|(address, record)| {
        let why = record.why.as_ref()?;
        Some(format!("{address:x} {why}"))
    });
    why.collect()
}

/// Who wrote what each record reads.
pub fn reads(translated: &Translated) -> Vec<String> {
    let records = translated.notes.records();
    let reads = records.flat_map(|(address, record)| {
        let read = move |(of, words): &(String, String)| format!("{address:x} {of} {words}");
        record.reads.iter().map(read)
    });
    reads.collect()
}
