//! Theorem 5 has a line for each public call of the proved crates, and the
//! line is of that call's own contract and of every slice that it is lent.
//! No crate can cite a static library: each function that `export_c` exports
//! is one call of `export`, under its name and with its clauses.

use std::fs;
use std::path::{Path, PathBuf};

/// A public call: its crate, its name, where its contract stands, and what is
/// determined at exit of each parameter that is lent for writing.
struct Call {
    krate: String,
    name: String,
    contract: String,
    lent: Vec<String>,
}

fn root() -> PathBuf {
    Path::new(env!("CARGO_MANIFEST_DIR")).join("../../..")
}

fn read(path: &Path) -> String {
    fs::read_to_string(path).unwrap_or_else(|e| panic!("{}: {e}", path.display()))
}

/// The parameters of the function whose parenthesis was just opened.
fn parameters(text: &str) -> Vec<&str> {
    let mut out = Vec::new();
    let (mut from, mut depth) = (0, 0);
    for (at, c) in text.char_indices() {
        match c {
            ')' if depth == 0 => {
                out.push(text[from..at].trim());
                break;
            }
            ',' if depth == 0 => {
                out.push(text[from..at].trim());
                from = at + 1;
            }
            '(' | '[' => depth += 1,
            ')' | ']' => depth -= 1,
            _ => {}
        }
    }
    out.retain(|p| !p.is_empty());
    out
}

/// The type whose methods a line begins: `impl<'a> Reader<'a> {` is `Reader`.
fn methods_of(line: &str) -> Option<&str> {
    let rest = line.strip_prefix("impl")?.strip_suffix(" {")?;
    let of = rest.rsplit("> ").next().expect("a type").trim();
    of.split('<').next()
}

/// What of a parameter that is lent for writing is determined at exit: a
/// slice's words, a state, a reader, or the lists and the state that a lift
/// works on. `owner` is the type whose method the call is.
fn determined(place: usize, parameter: &str, owner: Option<&str>) -> Option<String> {
    let held = match parameter {
        "&mut self" => owner?,
        _ if parameter.contains(" mut [") => "[",
        _ => parameter.split_once("&mut ")?.1,
    };
    let at = format!("x{}.0.now", ".1".repeat(place));
    Some(if held.starts_with("LiftCtx") {
        format!("at_hand {at}")
    } else {
        at
    })
}

/// The public calls of one source text, whose contracts stand below `path`:
/// its functions, and the methods of its types.
fn public(krate: &str, path: &str, text: &str) -> Vec<Call> {
    let mut out = Vec::new();
    let mut within = None;
    let mut place = 0;
    for line in text.split_inclusive('\n') {
        let rest = &text[place..];
        place += line.len();
        if !line.starts_with([' ', '\n']) {
            within = methods_of(line.trim_end());
        }
        let starts = ["pub fn ", "pub extern \"C\" fn ", "    pub fn "];
        let Some(rest) = starts.iter().find_map(|start| rest.strip_prefix(start)) else {
            continue;
        };
        let name = rest.split(['(', '<']).next().expect("a name");
        let open = rest.find('(').expect("parameters") + 1;
        let lent = parameters(&rest[open..])
            .iter()
            .enumerate()
            .filter_map(|(k, p)| determined(k, p, within))
            .collect();
        let named = |between: &str| {
            within
                .map(|of| format!("{of}{between}"))
                .unwrap_or_default()
        };
        out.push(Call {
            krate: krate.to_owned(),
            name: format!("{}{name}", named("·")),
            contract: format!("{path}.{}{name}", named(".")),
            lent,
        });
    }
    out
}

/// The functions of the public traits of one source text.
fn in_traits(krate: &str, path: &str, text: &str) -> Vec<Call> {
    let mut out = Vec::new();
    for part in text.split("\npub trait ").skip(1) {
        let name = part.split([' ', ':', '<']).next().expect("a name");
        let body = part.split("\n}").next().expect("its end");
        for start in ["\n    fn ", "\n    final fn "] {
            for method in body.split(start).skip(1) {
                let method = method.split(['(', '<']).next().expect("a name");
                out.push(Call {
                    krate: krate.to_owned(),
                    name: format!("{name}·{method}"),
                    contract: format!("{path}.{name}.{method}"),
                    lent: Vec::new(),
                });
            }
        }
    }
    out
}

/// The operators of the words, those that are derived too, their making from
/// one, and an error's making from that of the check: their promises are the
/// ghost members that they give to std's traits. Of each its crate, its name
/// in the theorem, and its impl's function.
const OPERATORS: [(&str, &str, &str); 11] = [
    ("words", "bitand", "WideBitAnd.bitand"),
    ("words", "bitor", "WideBitOr.bitor"),
    ("words", "bitxor", "WideBitXor.bitxor"),
    ("words", "shl", "WideShlU64.shl"),
    ("words", "shr", "WideShrU64.shr"),
    ("words", "from", "WideFromU64.from"),
    ("words", "derived_eq", "WidePartialEq.eq"),
    ("words", "derived_partial_cmp", "WidePartialOrd.partial_cmp"),
    ("words", "derived_cmp", "WideOrd.cmp"),
    ("evaluator", "from", "EvalErrorFromCheckError.from"),
    ("smtwriter", "from", "WriteErrorFromCheckError.from"),
];

/// What a contract that is a formula claims: the call, what its clauses are
/// given, and the claim.
const CLAIMS: [(&str, &str, &str, &str); 10] = [
    (
        "writing",
        "Sink·put",
        "S sink dict",
        "sink.took (a.1.0 ∷ []) a.0.now e.0.now",
    ),
    (
        "writing",
        "Sink·all",
        "S sink dict",
        "sink.took a.1.0.now a.0.now e.0.now",
    ),
    (
        "writing",
        "Sink·decimal",
        "S sink dict",
        "sink.took (decimal a.1.0) a.0.now e.0.now",
    ),
    (
        "writing",
        "Sink·binary",
        "S sink dict",
        "sink.took (bits a.1.1.0 (val a.1.0)) a.0.now e.0.now",
    ),
    (
        "writing",
        "Text·write",
        "T S text texts sink dict",
        "sink.took (text.text a.0.now) a.1.0.now e.1.0.now",
    ),
    (
        "smttext",
        "name",
        "S sink dict",
        "sink.took (name_from a.1.0 a.1.1.0 a.1.1.1.0) a.0.now e.0.now",
    ),
    (
        "smttext",
        "format",
        "S sink dict",
        "sink.took (format_text a.1.0) a.0.now e.0.now",
    ),
    (
        "smttext",
        "sort",
        "S sink dict",
        "sink.took (sort_text a.1.0) a.0.now e.0.now",
    ),
    (
        "answers",
        "Refusal·number",
        "E says code",
        "t ≡ says.number a.0.now",
    ),
    (
        "answers",
        "Refusal·place",
        "E says code",
        "t ≡ says.place a.0.now",
    ),
];

/// What the theorem says besides: of a writer the claim is `Wrote`, at each
/// function of a sink, and that determines its place and its bytes.
const OF_A_WRITER: [(&str, &str, &str); 4] = [
    ("put", "WriterSink.put.clauses 𝓛", "a.1.0 ∷ []"),
    ("all", "WriterSink.all.clauses 𝓛", "a.1.0.now"),
    (
        "decimal",
        "Sink.decimal.clauses (writer.the_row l) (record { took = Wrote }) dict 𝓛",
        "decimal a.1.0",
    ),
    (
        "binary",
        "Sink.binary.clauses (writer.the_row l) (record { took = Wrote }) dict 𝓛",
        "bits a.1.1.0 (val a.1.0)",
    ),
];

const WROTE: &str = "pub writing·wrote : (text : List ℕ) {s t u : Writer} → Wrote text s t → Wrote text s u → (t.at ≡ u.at) × (t.out.now ≡ u.out.now) writing·wrote = ";

/// The static library.
const EXPORTS: &str = "export_c";

/// Every public call of every library crate: of its root, and of its public
/// modules.
fn calls() -> Vec<Call> {
    let mut out = Vec::new();
    for entry in fs::read_dir(root().join("crates")).expect("crates/") {
        let source = entry.expect("an entry").path().join("src");
        if !source.join("lib.rt").exists() {
            continue;
        }
        let folder = source.parent().and_then(Path::file_name).expect("a name");
        let krate = folder.to_string_lossy();
        if krate == EXPORTS {
            continue;
        }
        let text = read(&source.join("lib.rt"));
        out.extend(public(&krate, &format!("Rattle.{krate}.proofs"), &text));
        out.extend(in_traits(
            &krate,
            &format!("Rattle.{krate}.specs.contracts"),
            &text,
        ));
        for line in text.lines() {
            if let Some(module) = line.strip_prefix("pub mod ") {
                let module = module.trim_end_matches(';');
                let text = read(&source.join(format!("{module}.rt")));
                out.extend(public(
                    &krate,
                    &format!("Rattle.{krate}.proofs.{module}"),
                    &text,
                ));
                out.extend(in_traits(
                    &krate,
                    &format!("Rattle.{krate}.specs.contracts.{module}"),
                    &text,
                ));
            }
        }
    }
    out.extend(OPERATORS.iter().map(|(krate, name, operator)| Call {
        krate: (*krate).to_owned(),
        name: (*name).to_owned(),
        contract: format!("Rattle.{krate}.proofs.{operator}"),
        lent: Vec::new(),
    }));
    out
}

/// What the theorem must state of a call. `trim` and `as_bytes` give a
/// reference back, of which its bytes are determined; a function on
/// what takes text, or of a trait, has its contract as a formula. A generic function is
/// determined at each of its parameters, whose laws stand behind them.
fn expected(call: &Call) -> String {
    let Call {
        krate, contract, ..
    } = call;
    let name = call.name.replace('_', "-");
    let key = format!("pub {krate}·{name}");
    if let Some((_, _, given, claim)) = CLAIMS.iter().find(|c| c.0 == krate && c.1 == name) {
        let contract = contract.replace(".proofs.", ".specs.contracts.");
        let bound: String = given.split(' ').map(|g| format!("({g} : _) ")).collect();
        return format!(
            "{key}-says : {{M : Type 1}} {{𝓤 : Ura M}} (𝓛 : Logic 𝓤) {bound}(memory : _) (run : _) (κ : _) (a : _) (t : _) (e : _) → ({contract}.clauses {given} 𝓛 memory run κ a).ensures tt t e ≡ (connectives 𝓤).⌜◌⌝ ({claim}) {krate}·{name}-says 𝓛 {given} memory run κ a t e = refl"
        );
    }
    match (krate.as_str(), name.as_str()) {
        ("texts", "trim" | "Text·as-bytes") => {
            format!("{key} : Fixes {contract}.Reads.Post (λ κ r x. r.now)")
        }
        ("words", "le") => {
            format!("{key} : (N : _) (n : _) → Determined ({contract}.Reads.Post N n)")
        }
        ("answers", "number") => {
            format!("{key} : (T : _) (t : _) → Determined ({contract}.Reads.Post T t)")
        }
        ("answers", "number-of" | "place-of") => format!(
            "{key} : (T : _) (E : _) (t : _) (e : _) (says : _) (code : _) → Determined ({contract}.Reads.Post T E t e says code)"
        ),
        ("answers", "count-or-place") => format!(
            "{key} : (E : _) (e : _) (says : _) (code : _) → Determined ({contract}.Reads.Post E e says code)"
        ),
        ("writing", "fitted") => format!(
            "{key} : (T : _) (laws : _) (text : _) (dict : _) → Determined₁ ({contract}.Reads.Post T laws text dict) (λ κ x. x.1.0.now)"
        ),
        _ => {
            let which = ["", "₁", "₂", "₃", "₄"][call.lent.len()];
            let slices: String = call
                .lent
                .iter()
                .map(|what| format!(" (λ κ x. {what})"))
                .collect();
            format!("{key} : Determined{which} {contract}.Reads.Post{slices}")
        }
    }
}

/// A text with its blanks and line ends as single blanks.
fn plain(text: &str) -> String {
    text.split_whitespace().collect::<Vec<_>>().join(" ")
}

/// Whether the theorem states this of a call, and no more before its proof
/// begins.
fn stated(theorem: &str, call: &Call) -> bool {
    let name = format!("{}·{}", call.krate, call.name.replace('_', "-"));
    let statement = expected(call);
    let proof = [
        format!(" {name} κ "),
        format!(" {name} T "),
        format!(" {name} E "),
        format!(" {name} N "),
        " unfolding ".to_owned(),
    ];
    theorem.split_once(&statement).is_some_and(|(_, rest)| {
        statement.ends_with("= refl") || proof.iter().any(|start| rest.starts_with(start))
    })
}

/// What the theorem does not state of a writer.
fn unsaid(theorem: &str) -> Vec<String> {
    let mut out: Vec<String> = OF_A_WRITER
        .iter()
        .filter(|(name, clauses, text)| {
            let bound = if clauses.starts_with("Writer") { "" } else { "(l : _) (dict : _) " };
            !theorem.contains(&format!(
                "pub writing·Writer·{name}-says : {{M : Type 1}} {{𝓤 : Ura M}} (𝓛 : Logic 𝓤) {bound}(memory : _) (run : _) (κ : _) (a : _) (t : _) (e : _) → (Rattle.writing.specs.contracts.{clauses} memory run κ a).ensures tt t e ≡ (connectives 𝓤).⌜◌⌝ (Wrote ({text}) a.0.now e.0.now) writing"
            ))
        })
        .map(|(name, ..)| format!("writing::Writer·{name}"))
        .collect();
    if !theorem.contains(WROTE) {
        out.push("writing::wrote".to_owned());
    }
    out
}

/// The calls of which the theorem does not state what it must.
fn missing(theorem: &str, calls: &[Call]) -> Vec<String> {
    let theorem = plain(theorem);
    let mut out: Vec<String> = calls
        .iter()
        .filter(|call| !stated(&theorem, call))
        .map(|call| format!("{}::{}", call.krate, call.name))
        .collect();
    out.extend(unsaid(&theorem));
    out
}

fn theorem() -> String {
    read(&root().join("crates/agreement/specs/Determined.antt"))
}

#[test]
fn each_public_call_is_determined() {
    let calls = calls();
    assert!(calls.len() > 100);
    assert_eq!(missing(&theorem(), &calls), Vec::<String>::new());
}

#[test]
fn another_statement_is_reported() {
    let said = |old: &str, new: &str| {
        let text = theorem();
        assert!(text.contains(old), "{old}");
        missing(&text.replace(old, new), &calls())
    };
    assert_eq!(
        said("pub lifter·lift :", "pub lifter·left :"),
        ["lifter::lift"]
    );
    assert_eq!(
        said("proofs.bv_xor.Reads", "proofs.bv_and.Reads"),
        ["exprs::bv_xor"]
    );
    let run = "listing.proofs.run.Reads.Post (λ κ x. x.1.0.now)";
    let lent = " (λ κ x. x.1.1.0.now)";
    assert_eq!(said(&format!("{run}{lent}"), run), ["listing::run"]);
    assert_eq!(
        said(
            "reader.proofs.Reader.take.Reads",
            "reader.proofs.Reader.record_at.Reads"
        ),
        ["reader::Reader·take"]
    );
    assert_eq!(
        said(
            "(sink.took (decimal a.1.0) a.0.now",
            "(sink.took (decimal a.1.1.0) a.0.now"
        ),
        ["writing::Sink·decimal"]
    );
    assert_eq!(
        said("(Wrote (a.1.0.now) a.0", "(Wrote ([]) a.0"),
        ["writing::Writer·all"]
    );
    assert_eq!(
        said("pub writing·wrote :", "pub writing·read :"),
        ["writing::wrote"]
    );
    assert_eq!(
        said("WidePartialEq.eq.Reads", "WideOrd.cmp.Reads"),
        ["words::derived_eq"]
    );
}

/// The source of a call's module, as its path in a body names it.
fn source_of(module: &str) -> String {
    let file = if module.is_empty() { "lib" } else { module };
    read(&root().join(format!("crates/export/src/{file}.rt")))
}

/// The exports of a source that are not one call of `export`, of the same
/// name, parameters and clauses; and the calls that it does not export.
fn astray(exports: &str) -> Vec<String> {
    let mut lacking: Vec<String> = calls()
        .into_iter()
        .filter(|call| call.krate == "export")
        .map(|call| call.name)
        .collect();
    let mut out = Vec::new();
    for part in exports
        .split("\n#[unsafe(no_mangle)]\npub extern \"C\" fn ")
        .skip(1)
    {
        let (promised, rest) = part.split_once("\n{\n").expect("a body");
        let body = rest.split("\n}").next().expect("its end");
        let (name, open) = promised.split_once('(').expect("parameters");
        let given: Vec<&str> = parameters(open)
            .iter()
            .map(|p| p.split(':').next().expect("a name"))
            .collect();
        let call = format!("{name}({})", given.join(", "));
        let module = plain(body)
            .strip_suffix(&call)
            .and_then(|path| path.strip_prefix("export::").map(str::to_owned))
            .map(|path| path.trim_end_matches("::").to_owned());
        let same = module.is_some_and(|module| {
            source_of(&module).contains(&format!("\npub fn {promised}\n{{\n"))
        });
        let known = lacking.iter().position(|call| call == name);
        if let Some(place) = known {
            lacking.remove(place);
        }
        if known.is_none() || !same {
            out.push(name.to_owned());
        }
    }
    out.extend(lacking);
    out
}

fn exports() -> String {
    read(&root().join("crates").join(EXPORTS).join("src/lib.rt"))
}

#[test]
fn each_export_is_a_call_of_the_library() {
    assert_eq!(astray(&exports()), Vec::<String>::new());
}

#[test]
fn another_export_is_reported() {
    let said = |old: &str, new: &str| {
        let text = exports();
        assert!(text.contains(old), "{old}");
        astray(&text.replacen(old, new, 1))
    };
    assert_eq!(
        said("Classifies flat.now out.old", "Affects flat.now out.old"),
        ["x87_classify"]
    );
    assert_eq!(
        said(
            "export::values::x87_check(",
            "export::values::x87_image_read("
        ),
        ["x87_check"]
    );
    assert_eq!(
        said(
            "#[unsafe(no_mangle)]\npub extern \"C\" fn x87_why(",
            "fn x87_why("
        ),
        ["x87_why"]
    );
}
