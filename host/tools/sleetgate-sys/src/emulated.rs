//! The library's functions on any slices, where the machine is not x86-64:
//! QEMU runs `served.c`, which calls them. Each thread has a process of its
//! own for that, from its first call on.

use std::cell::RefCell;
use std::path::Path;

use emulator::Served;

const PROGRAM: &str = concat!(env!("OUT_DIR"), "/served");

thread_local! {
    static SERVED: RefCell<Served> = RefCell::new(Served::start(Path::new(PROGRAM)));
}

/// Bytes of a word.
const WORD: usize = 8;

/// Slices of a request, used or not.
const SLICES: usize = 5;

/// The calls, numbered as in `served.c`.
#[derive(Clone, Copy)]
enum Call {
    Classify,
    Why,
    Effect,
    ReadRecord,
    Lift,
    LiftRecord,
    ImageRead,
    ImageWrite,
    Check,
    Evaluate,
    SmtWrite,
    SmtRead,
}

/// A slice that is lent; those that are only read stand first in a call.
enum Lent<'a> {
    Bytes(&'a [u8]),
    Words(&'a [u64]),
    WrittenBytes(&'a mut [u8]),
    WrittenWords(&'a mut [u64]),
}

use Lent::{Bytes, Words, WrittenBytes, WrittenWords};

impl Lent<'_> {
    fn is_written(&self) -> bool {
        matches!(self, WrittenBytes(_) | WrittenWords(_))
    }

    /// How many bytes it has.
    fn size(&self) -> usize {
        match self {
            Bytes(bytes) => bytes.len(),
            WrittenBytes(bytes) => bytes.len(),
            Words(words) => words.len() * WORD,
            WrittenWords(words) => words.len() * WORD,
        }
    }

    /// Add its contents to a request, filled up to whole words.
    fn put(&self, request: &mut Vec<u8>) {
        match self {
            Bytes(bytes) => request.extend(*bytes),
            WrittenBytes(bytes) => request.extend(&**bytes),
            Words(words) => put(words, request),
            WrittenWords(words) => put(words, request),
        }
        request.resize(request.len().next_multiple_of(WORD), 0);
    }

    /// Take its contents from an answer, and give what is behind them.
    fn take<'a>(&mut self, answer: &'a [u8]) -> &'a [u8] {
        let size = self.size();
        match self {
            WrittenBytes(bytes) => bytes.copy_from_slice(&answer[..size]),
            WrittenWords(words) => {
                let told = answer[..size].as_chunks().0;
                let pairs = words.iter_mut().zip(told);
                pairs.for_each(|(word, &bytes)| *word = u64::from_le_bytes(bytes));
            }
            Bytes(_) | Words(_) => return answer,
        }
        &answer[size.next_multiple_of(WORD)..]
    }
}

fn put(words: &[u64], request: &mut Vec<u8>) {
    request.extend(words.iter().flat_map(|word| word.to_le_bytes()));
}

/// Do a call with its numbers on what is lent.
fn ask(call: Call, numbers: [u64; 2], lent: &mut [Lent]) -> u32 {
    let only_read = lent.iter().take_while(|slice| !slice.is_written()).count();
    let mut head = [0; 4 + SLICES];
    head[..4].copy_from_slice(&[call as u64, numbers[0], numbers[1], only_read as u64]);
    for (size, slice) in head[4..].iter_mut().zip(&*lent) {
        *size = slice.size() as u64;
    }
    let mut request = Vec::new();
    put(&head, &mut request);
    let (read, written) = lent.split_at_mut(only_read);
    for slice in read {
        slice.put(&mut request);
    }
    let begin = request.len();
    put(&[0], &mut request);
    for slice in &*written {
        slice.put(&mut request);
    }
    let mut answer = vec![0; request.len() - begin];
    SERVED.with_borrow_mut(|served| served.ask(&request, &mut answer));
    let (number, mut contents) = answer.split_at(WORD);
    for slice in written {
        contents = slice.take(contents);
    }
    u32::from_le_bytes(*number.first_chunk().expect("a word"))
}

/// As [`crate::classify`], on any lengths.
pub fn classify(flat: &[u8], out: &mut [u64]) -> u32 {
    let lent = &mut [Bytes(flat), WrittenWords(out)];
    ask(Call::Classify, [0; 2], lent)
}

/// As [`crate::why`], on any lengths.
pub fn why(flat: &[u8], out: &mut [u64]) -> u32 {
    let lent = &mut [Bytes(flat), WrittenWords(out)];
    ask(Call::Why, [0; 2], lent)
}

/// As [`crate::effect`], on any lengths.
pub fn effect(flat: &[u8], out: &mut [u64]) -> u32 {
    let lent = &mut [Bytes(flat), WrittenWords(out)];
    ask(Call::Effect, [0; 2], lent)
}

/// As [`crate::read_record`], on any lengths.
pub fn read_record(input: &[u8], at: usize, flat: &mut [u8], out: &mut [u64]) -> u32 {
    let lent = &mut [Bytes(input), WrittenBytes(flat), WrittenWords(out)];
    ask(Call::ReadRecord, [at as u64, 0], lent)
}

/// As [`crate::lift`], on any lengths.
pub fn lift(
    flat: &[u8],
    state: &mut [u64],
    nodes: &mut [u64],
    statements: &mut [u64],
    out: &mut [u64],
) -> u32 {
    let [state, nodes, statements, out] = [state, nodes, statements, out].map(WrittenWords);
    let lent = &mut [Bytes(flat), state, nodes, statements, out];
    ask(Call::Lift, [0; 2], lent)
}

/// As [`crate::lift_record`], on any lengths.
pub fn lift_record(
    input: &[u8],
    at: usize,
    state: &mut [u64],
    nodes: &mut [u64],
    statements: &mut [u64],
    out: &mut [u64],
) -> u32 {
    let [state, nodes, statements, out] = [state, nodes, statements, out].map(WrittenWords);
    let lent = &mut [Bytes(input), state, nodes, statements, out];
    ask(Call::LiftRecord, [at as u64, 0], lent)
}

/// As [`crate::image_read`], on any lengths.
pub fn image_read(image: &[u8], low: u64, high: u64, out: &mut [u64]) -> u32 {
    let lent = &mut [Bytes(image), WrittenWords(out)];
    ask(Call::ImageRead, [low, high], lent)
}

/// As [`crate::image_write`], on any lengths.
pub fn image_write(image: &mut [u8], low: u64, high: u64) -> u32 {
    ask(Call::ImageWrite, [low, high], &mut [WrittenBytes(image)])
}

/// As [`crate::check`], on any lengths.
pub fn check(nodes: &[u64], count: usize, out: &mut [u64]) -> u32 {
    let lent = &mut [Words(nodes), WrittenWords(out)];
    ask(Call::Check, [count as u64, 0], lent)
}

/// As [`crate::evaluate`], on any lengths.
pub fn evaluate(
    nodes: &[u64],
    count: usize,
    given: &[u64],
    column: &mut [u64],
    out: &mut [u64],
) -> u32 {
    let [column, out] = [column, out].map(WrittenWords);
    let lent = &mut [Words(nodes), Words(given), column, out];
    ask(Call::Evaluate, [count as u64, 0], lent)
}

/// As [`crate::smt_write`], on any lengths.
pub fn smt_write(
    nodes: &[u64],
    count: usize,
    root: usize,
    text: &mut [u8],
    out: &mut [u64],
) -> u32 {
    let lent = &mut [Words(nodes), WrittenBytes(text), WrittenWords(out)];
    ask(Call::SmtWrite, [count as u64, root as u64], lent)
}

/// As [`crate::smt_read`], on any lengths.
pub fn smt_read(text: &[u8], nodes: &mut [u64], out: &mut [u64]) -> u32 {
    let [nodes, out] = [nodes, out].map(WrittenWords);
    ask(Call::SmtRead, [0; 2], &mut [Bytes(text), nodes, out])
}
