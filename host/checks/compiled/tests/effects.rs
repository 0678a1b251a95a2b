//! What `x87rec` believes of integer code, beside what the processor does.

use std::collections::{BTreeMap, BTreeSet, HashMap};
use std::io::{self, Write as _};
use std::path::Path;

use compiled::belief::{self, Counts, name};
use compiled::code::Code;
use compiled::gcc::{assemble, llvm};
use compiled::integer::{ABSENT, CONDITIONS, forms};
use compiled::machine::Machine;
use compiled::mixed;
use compiled::needless::Needless;
use compiled::probed::{Believed, Function, Seen, arena, assembly, parts};
use compiled::run::{ARENA, Run};
use compiled::way::taken;
use differential::rng::Rng;
use notes::{Notes, Record, What};
use x87rec::passes;

/// Runs of each function.
const RUNS: usize = 8;

/// Functions of random code.
const MIXED: usize = 400;

/// The list of the names that are passed over, as it is written.
const LIST: &str = include_str!("../../../tools/x87rec/src/passing.rs");

/// Past the test harness's capture.
fn left_out(why: &str) {
    // A line that cannot be written is no reason to fail.
    let _ = writeln!(io::stderr(), "left out: {why}");
}

/// Functions that were assembled, on this machine.
struct Tried {
    machine: Machine,
    objdump: String,
    /// The same by LLVM's tool, where it is there.
    llvm: String,
}

impl Tried {
    fn start(name: &str, functions: &[Function]) -> io::Result<Self> {
        let folder = Path::new(env!("CARGO_TARGET_TMPDIR"));
        let compiled = assemble(name, &assembly(functions), folder)?;
        Ok(Self {
            machine: Machine::start(&compiled.program)?,
            objdump: compiled.objdump,
            llvm: llvm(&compiled.program).unwrap_or_default(),
        })
    }

    fn run(&mut self, code: &Code, arena: &[u8; ARENA]) -> io::Result<Run> {
        let entry = code.entry().ok_or(io::ErrorKind::NotFound)?;
        self.machine.run(entry, arena)
    }
}

/// Assemble functions and start them. Where a function without code of its
/// own does not run, it is said why; where that runs, these must too.
fn started(name: &str, functions: &[Function]) -> Option<Tried> {
    let mut empty = Function::entered("empty".to_owned());
    empty.end();
    let trial = Tried::start(&format!("{name}-trial"), &[empty]).and_then(|mut tried| {
        let code = Code::of(&tried.objdump, "empty").ok_or(io::ErrorKind::NotFound)?;
        tried.run(&code, &[0; ARENA])
    });
    if let Err(why) = trial {
        left_out(&format!(
            "32-bit assembly is not made or not run here; {why}"
        ));
        return None;
    }
    Some(Tried::start(name, functions).expect("it is assembled"))
}

/// What is believed of a function, by the jumps that a way takes.
struct Beliefs<'a> {
    code: Code,
    texts: Vec<&'a str>,
    known: HashMap<Vec<u32>, Vec<Believed>>,
    /// What is changed of it.
    change: &'a dyn Fn(&mut Notes),
}

impl<'a> Beliefs<'a> {
    /// Of a function in the parts of some disassemblies.
    fn new(parts: &[HashMap<&'a str, &'a str>], function: &str) -> Self {
        let texts = parts
            .iter()
            .filter_map(|parts| parts.get(function).copied());
        let texts: Vec<&str> = texts.collect();
        Self {
            code: Code::of(texts[0], function).expect("it is there"),
            texts,
            known: HashMap::new(),
            change: &|_| {},
        }
    }

    /// What is believed of each text.
    fn of(&mut self, taken: Vec<u32>) -> &[Believed] {
        self.known.entry(taken).or_insert_with_key(|taken| {
            let texts = self.texts.iter();
            let believed = texts.map(|text| Believed::of(text, taken).expect("it is understood"));
            let changed = believed.map(|mut believed| {
                (self.change)(&mut believed.way);
                (self.change)(&mut believed.whole);
                believed
            });
            changed.collect()
        })
    }
}

/// All that was held against runs.
#[derive(Default)]
struct Held {
    counts: Counts,
    differences: Vec<String>,
}

impl Held {
    /// Hold all that is believed of a function against some runs, up to the
    /// first difference; each run is looked at.
    fn function(
        &mut self,
        tried: &mut Tried,
        beliefs: &mut Beliefs,
        rng: &mut Rng,
        mut look: impl FnMut(&mut Beliefs, &Seen),
    ) -> Result<(), String> {
        let code = beliefs.code.clone();
        for _ in 0..RUNS {
            let arena = arena(tried.machine.arena, rng);
            let run = tried.run(&code, &arena).map_err(|why| why.to_string())?;
            let seen = Seen::new(&run, &code);
            look(beliefs, &seen);
            self.run(beliefs, &seen)?;
        }
        Ok(())
    }

    /// Hold what is believed against a run; of a way only where it has no
    /// turns.
    fn run(&mut self, beliefs: &mut Beliefs, seen: &Seen) -> Result<(), String> {
        let (turns, beside) = (seen.has_turns(), seen.beside());
        let taken = if turns { Vec::new() } else { taken(beside) };
        beliefs.of(taken).iter().try_for_each(|believed| {
            if !turns {
                belief::way(&believed.way, beside, &mut self.counts)?;
            }
            belief::whole(&believed.whole, beside, &mut self.counts)
        })
    }

    /// The same for some functions, by their numbers.
    fn all(
        &mut self,
        tried: &mut Tried,
        functions: &[Function],
        mut look: impl FnMut(usize, &mut Beliefs, &Seen),
    ) {
        let mut rng = Rng::new(87);
        let (objdump, llvm) = (tried.objdump.clone(), tried.llvm.clone());
        let parts = [parts(&objdump), parts(&llvm)];
        for (at, function) in functions.iter().enumerate() {
            let mut beliefs = Beliefs::new(&parts, &function.name);
            let look = |beliefs: &mut Beliefs, seen: &Seen| look(at, beliefs, seen);
            let told = self.function(tried, &mut beliefs, &mut rng, look);
            let told = told.map_err(|why| format!("{why}\nin\n{function}"));
            self.differences.extend(told.err());
        }
    }

    /// There are so many kinds of beliefs, and all are true.
    fn end(self, kinds: usize) {
        println!("{:?}", self.counts);
        assert_eq!(self.counts.len(), kinds, "{:?}", self.counts);
        let differences = self.differences.join("\n");
        assert!(differences.is_empty(), "{differences}");
    }
}

#[test]
fn forms_do_what_is_believed() {
    let forms = forms();
    let functions = forms.iter().enumerate();
    let functions = functions.map(|(number, form)| form.function(format!("form{number}")));
    let (functions, places): (Vec<Function>, Vec<usize>) = functions.unzip();
    let Some(mut tried) = started("forms", &functions) else {
        return;
    };
    let mut held = Held::default();
    let mut names = BTreeSet::new();
    let mut needless: BTreeMap<usize, Needless> = BTreeMap::new();
    held.all(&mut tried, &functions, |at, beliefs, seen| {
        let code = seen.beside().code;
        let address = code.address(places[at]).expect("it is there");
        names.extend(code.at(address).map(|code| name(code).to_owned()));
        let notes = &beliefs.of(Vec::new())[0].way;
        let entry = needless.entry(at);
        let needless = entry.or_insert_with(|| Needless::told(notes, address));
        needless.run(seen.beside());
    });
    let mut told: BTreeMap<String, BTreeSet<&str>> = BTreeMap::new();
    for (at, needless) in &needless {
        told.entry(forms[*at].text.clone())
            .or_default()
            .extend(needless.names());
    }
    told.retain(|_, names| !names.is_empty());
    println!("{} forms; needlessly given up: {told:?}", forms.len());
    assert_eq!(untried(&names), Vec::<String>::new());
    held.end(6);
}

/// Names that are passed over and that no form has.
fn untried(names: &BTreeSet<String>) -> Vec<String> {
    let listed = LIST.split('"').filter(|name| passes(name, &[]));
    let families = ["cmov", "j", "set"].iter();
    let conditions = families.flat_map(|family| CONDITIONS.map(|c| format!("{family}{c}")));
    let all = listed.map(str::to_owned).chain(conditions);
    all.filter(|name| !names.contains(name) && !ABSENT.contains(&name.as_str()))
        .collect()
}

#[test]
fn mixtures_do_what_is_believed() {
    let mut rng = Rng::new(1);
    let functions = (0..MIXED).map(|number| {
        let turns = number % 2 == 1;
        mixed::function(format!("mixed{number}"), turns, &mut rng)
    });
    let functions: Vec<Function> = functions.collect();
    let Some(mut tried) = started("mixed", &functions) else {
        return;
    };
    let mut held = Held::default();
    held.all(&mut tried, &functions, |_, _, _| {});
    held.end(7);
}

/// Change what is believed of a function, and see that some run tells.
fn seen(function: &str, lines: &[&str], change: impl Fn(&mut Notes)) {
    let mut own = Function::entered(function.to_owned());
    own.probe();
    for line in lines {
        own.line(*line);
    }
    own.end();
    let Some(mut tried) = started(function, &[own]) else {
        return;
    };
    let objdump = tried.objdump.clone();
    let mut beliefs = Beliefs::new(&[parts(&objdump)], function);
    let mut told = |beliefs: &mut Beliefs| {
        let rng = &mut Rng::new(3);
        Held::default().function(&mut tried, beliefs, rng, |_, _| {})
    };
    assert_eq!(told(&mut beliefs), Ok(()));
    beliefs.known.clear();
    beliefs.change = &change;
    assert_ne!(told(&mut beliefs), Ok(()), "{function}");
}

/// The records of notes, to be changed.
fn records(notes: &mut Notes) -> impl Iterator<Item = &mut Record> {
    notes
        .events
        .iter_mut()
        .filter_map(|event| match &mut event.what {
            What::Record(record) => Some(record),
            _ => None,
        })
}

#[test]
fn a_flag_of_another_writer_is_seen() {
    for (flag, line) in [("CF", "stc"), ("PF", "inc eax"), ("ZF", "test edx,edx")] {
        seen(&format!("writes{flag}"), &[line], |notes| {
            let reads = records(notes).flat_map(|record| &mut record.reads);
            let mut reads: Vec<_> = reads.filter(|(name, _)| name == flag).collect();
            let first = reads[0].1.clone();
            reads.last_mut().expect("it is read").1 = first;
        });
    }
}

#[test]
fn a_register_that_is_not_kept_is_seen() {
    for line in ["inc edx", "xadd edx,edx", "movsx edx,ax", "mov dh,cl"] {
        let name = line.replace([' ', ','], "_");
        seen(&name, &[line], |notes| {
            let probes = records(notes).filter(|record| record.text.ends_with("[edx]"));
            let mut probes: Vec<_> = probes.collect();
            let first = probes[0].bytes.clone();
            probes.last_mut().expect("it is probed").bytes = first;
        });
    }
}

#[test]
fn a_stack_pointer_elsewhere_is_seen() {
    seen("elsewhere", &["push eax", "push ax"], |notes| {
        let place = notes
            .addresses
            .iter_mut()
            .find(|text| *text == "[esp0-0x66]");
        *place.expect("it is told") = "[esp0-0x68]".to_owned();
    });
}

#[test]
fn a_word_that_is_not_kept_is_seen() {
    for line in [
        "mov BYTE PTR [esp+0x3],al",
        "push edx",
        "movups [esp-0x6],xmm0",
    ] {
        let name = line.replace(|c: char| !c.is_ascii_alphanumeric(), "_");
        seen(&name, &["movups xmm0,[ebx]", line], |notes| {
            let remarks = notes
                .events
                .iter_mut()
                .filter_map(|event| match &mut event.what {
                    What::Remark(words) => Some(words),
                    _ => None,
                });
            let entry = "the control word is that of the entry";
            remarks.for_each(|words| *words = words.replace("the rounding is not known", entry));
        });
    }
}

#[test]
fn a_rounding_that_is_not_lifted_for_is_seen() {
    for line in ["frndint", "fadd st,st(1)", "fst DWORD PTR [ebx]"] {
        let name = line.replace(|c: char| !c.is_ascii_alphanumeric(), "_");
        seen(&name, &["fldcw WORD PTR [esp+0x6]", line], |notes| {
            let unmodelled = records(notes).filter(|record| record.bytes[11] == b'?');
            let record = unmodelled.last().expect("it is not lifted");
            record.bytes[10] -= 1;
            record.bytes.remove(11);
        });
    }
}

#[test]
fn an_x87_unit_that_is_touched_is_seen() {
    let mut function = Function::entered("touches".to_owned());
    function.line("movd mm0,eax");
    function.end();
    let place = Function::entered(String::new()).instructions();
    let Some(mut tried) = started("touches", &[function]) else {
        return;
    };
    let code = Code::of(&tried.objdump, "touches").expect("it is there");
    let run = tried.run(&code, &[0; ARENA]).expect("it runs");
    let seen = Seen::new(&run, &code);
    let kept = |at| {
        seen.beside()
            .behind(at)
            .has_x87_of(seen.beside().before(at))
    };
    assert!(kept(place - 4) && !kept(place));
}
