//! Code and definition made wrong together: the crates below are then
//! proved, and it is the theorems of `agreement` that must refuse them.
//!
//! A theorem rests on the definitions and on no code, so each joint edit is
//! made in a copy of the crates without their functions, which is checked in
//! seconds. The copy without an edit must be proved; with one, `agreement`
//! must be refused, at the file of the theorem that the edit is about.

use std::env;
use std::fs;
use std::path::{Path, PathBuf};
use std::process::{self, Command};
use std::thread;

/// The folder of the joint edits, a file each.
const EDITS: &str = "edits";

/// The crates whose laws in `proofs/` the theorems rest on; those of the
/// others are for their own code.
const WITH_LAWS: [&str; 7] = [
    "details",
    "lists",
    "exprs",
    "memory",
    "moves",
    "lifter",
    "agreement",
];

/// The crate of the theorems: it has no functions, and so no folders of
/// their proofs.
const THEOREMS: &str = "agreement";

/// The programs, and what cites the contracts of functions. Static libraries
/// are functions alone, and are left out too.
const LEFT_OUT: [&str; 2] = ["replay", "x87lift"];
const CITES_CODE: [&str; 3] = ["Determined", "Cited", "Theorems"];

/// What is about SMT-LIB text, which no joint edit is about: the modules of
/// the other crates, by their names, and the crates.
const OF_TEXTS: [&str; 3] = ["smt", "Texts", "Beside"];

fn of_texts(name: &str) -> bool {
    name.starts_with("smt") || name == "viable"
}

/// A joint edit: the file whose theorem must refuse it, and what is
/// replaced where.
struct Joint {
    name: String,
    refused: String,
    changes: Vec<Change>,
}

struct Change {
    file: String,
    old: String,
    new: String,
}

fn here() -> PathBuf {
    PathBuf::from(env!("CARGO_MANIFEST_DIR"))
}

fn read(path: &Path) -> String {
    fs::read_to_string(path).unwrap_or_else(|e| panic!("{}: {e}", path.display()))
}

/// The lines of an edit: `refused: FILE`, then `file: FILE` with `old:` and
/// `new:` lines, several of which are one text.
fn joint(name: &str, text: &str) -> Joint {
    let mut out = Joint {
        name: name.to_owned(),
        refused: String::new(),
        changes: Vec::new(),
    };
    let mut file = String::new();
    let mut last = "";
    for line in text.lines() {
        let (key, value) = line
            .split_once(": ")
            .unwrap_or((line.trim_end_matches(':'), ""));
        match key {
            "refused" => value.clone_into(&mut out.refused),
            "file" => value.clone_into(&mut file),
            "old" if last == "old" => {
                push(&mut out.changes.last_mut().expect("a change").old, value)
            }
            "old" => out.changes.push(Change {
                file: file.clone(),
                old: value.to_owned(),
                new: String::new(),
            }),
            "new" if last == "new" => {
                push(&mut out.changes.last_mut().expect("a change").new, value)
            }
            "new" => value.clone_into(&mut out.changes.last_mut().expect("a change").new),
            other => panic!("{name}: a line that begins {other}"),
        }
        last = key;
    }
    out
}

fn push(text: &mut String, line: &str) {
    text.push('\n');
    text.push_str(line);
}

/// The joint edits, by name.
fn joints() -> Vec<Joint> {
    let mut paths: Vec<PathBuf> = fs::read_dir(here().join(EDITS))
        .expect("the edits")
        .map(|entry| entry.expect("an entry").path())
        .collect();
    paths.sort();
    paths
        .iter()
        .map(|path| {
            joint(
                &path.file_stem().expect("a name").to_string_lossy(),
                &read(path),
            )
        })
        .collect()
}

/// A source without its functions and traits: types and constants stay, with
/// their attributes, and of what is imported the names that they need.
fn declarations(source: &str) -> String {
    needed(&without_functions(source))
}

/// The names that a `use` line brings in.
fn names(import: &str) -> Vec<&str> {
    let last = import.rsplit("::").next().expect("a name");
    last.trim_matches(|c: char| "{};\n ".contains(c))
        .split(',')
        .map(str::trim)
        .filter(|name| !name.is_empty())
        .collect()
}

/// Whether a line says nothing of the code: a comment, or what clauses import.
fn silent(line: &str) -> bool {
    line.starts_with("//") || line.starts_with("ghost use ")
}

/// A text without the names that its `use` lines bring in and nothing else in
/// it says.
fn needed(source: &str) -> String {
    let mut parts: Vec<(bool, String)> = Vec::new();
    let mut open = false;
    for line in source.lines() {
        let begins = line.starts_with("use ");
        if begins || !open {
            parts.push((begins, String::new()));
        }
        let (_, text) = parts.last_mut().expect("a part");
        text.push_str(line);
        text.push('\n');
        open = (open || begins) && !line.ends_with(';');
    }
    let said: Vec<&str> = parts
        .iter()
        .filter(|(import, text)| !import && !silent(text.trim_start()))
        .flat_map(|(_, text)| text.split(|c: char| !c.is_alphanumeric() && c != '_'))
        .collect();
    parts
        .iter()
        .map(|(import, text)| {
            let kept = |name: &&str| said.contains(name);
            let all = if *import { names(text) } else { Vec::new() };
            let some: Vec<&str> = all.iter().copied().filter(|name| kept(&name)).collect();
            if some.len() == all.len() {
                text.clone()
            } else if some.is_empty() {
                String::new()
            } else {
                let path = text.split('{').next().expect("a path");
                format!("{path}{{{}}};\n", some.join(", "))
            }
        })
        .collect()
}

fn without_functions(source: &str) -> String {
    let mut out = String::new();
    let mut attributes = String::new();
    let mut inside = false;
    for line in source.lines() {
        let plain = line
            .strip_prefix("pub(crate) ")
            .or(line.strip_prefix("pub "))
            .unwrap_or(line);
        let plain = plain.strip_prefix("extern \"C\" ").unwrap_or(plain);
        inside |= ["fn ", "const fn ", "impl ", "impl<", "trait "]
            .iter()
            .any(|start| plain.starts_with(start));
        if !inside && line.starts_with("#[") {
            attributes.push_str(line);
            attributes.push('\n');
            continue;
        }
        if !inside {
            out.push_str(&attributes);
            out.push_str(line);
            out.push('\n');
        }
        attributes.clear();
        inside &= line != "}";
    }
    out
}

/// A source without the lines that name a module of texts.
fn without_texts(source: &str) -> String {
    let is = |line: &&str| {
        let plain = line.strip_prefix("pub ").unwrap_or(line);
        let plain = plain.strip_suffix(';').unwrap_or(plain);
        OF_TEXTS.iter().any(|name| plain == format!("mod {name}"))
    };
    source
        .lines()
        .filter(|line| !is(line))
        .map(|line| line.to_owned() + "\n")
        .collect()
}

/// Copies the files of a folder, and of the folders in it where `deep`; not
/// those of texts.
fn copy(from: &Path, to: &Path, deep: bool, change: fn(&str) -> String) {
    let Ok(entries) = fs::read_dir(from) else {
        return;
    };
    fs::create_dir_all(to).expect("a folder");
    for entry in entries {
        let path = entry.expect("an entry").path();
        let there = to.join(path.file_name().expect("a name"));
        let stem = path.file_stem().expect("a name").to_string_lossy();
        if OF_TEXTS.contains(&stem.as_ref()) {
            continue;
        }
        if path.is_file() {
            fs::write(there, without_texts(&change(&read(&path)))).expect("a file");
        } else if deep {
            copy(&path, &there, deep, change);
        }
    }
}

/// The crates without functions and without what cites them.
fn without_code(root: &Path, to: &Path) {
    let list = read(&root.join("crates.txt"));
    let kept: Vec<(&str, Vec<&str>)> = list
        .lines()
        .filter(|line| !line.starts_with('#'))
        .filter_map(|line| line.split_once(':'))
        .filter(|(name, _)| !name.ends_with(" staticlib"))
        .filter(|(name, _)| !LEFT_OUT.contains(name) && !of_texts(name))
        .map(|(name, deps)| {
            (
                name,
                deps.split_whitespace().filter(|d| !of_texts(d)).collect(),
            )
        })
        .collect();
    for (name, _) in &kept {
        let (from, into) = (root.join("crates").join(name), to.join("crates").join(name));
        copy(&from.join("src"), &into.join("src"), false, declarations);
        copy(
            &from.join("specs"),
            &into.join("specs"),
            true,
            str::to_owned,
        );
        if WITH_LAWS.contains(name) {
            copy(
                &from.join("proofs"),
                &into.join("proofs"),
                *name == THEOREMS,
                str::to_owned,
            );
        }
    }
    let lines: String = kept
        .iter()
        .map(|(name, deps)| format!("{name}: {}\n", deps.join(" ")))
        .collect();
    fs::write(to.join("crates.txt"), lines).expect("crates.txt");
    for folder in ["specs", "proofs"] {
        let folder = to.join("crates").join(THEOREMS).join(folder);
        let mut lib = read(&folder.join("Lib.antt"));
        for name in CITES_CODE {
            lib = lib.replace(&format!("pub mod {name}\n"), "");
            let _ = fs::remove_file(folder.join(format!("{name}.antt")));
        }
        fs::write(folder.join("Lib.antt"), lib).expect("Lib.antt");
    }
}

/// Whether `agreement` is proved in a copy, and what is said of it.
fn proved(copy: &Path) -> (bool, String) {
    let done = Command::new("rt")
        .args(["check", "--jobs", "1"])
        .current_dir(copy.join("crates").join(THEOREMS))
        .output()
        .expect("rt is run");
    let said =
        String::from_utf8_lossy(&done.stdout).into_owned() + &String::from_utf8_lossy(&done.stderr);
    (done.status.success(), said)
}

/// A copy of a copy, with what was proved of it, and the edit made.
fn edited(base: &Path, edit: &Joint) -> PathBuf {
    let to = base.with_file_name(&edit.name);
    let _ = fs::remove_dir_all(&to);
    let done = Command::new("cp")
        .arg("-r")
        .arg(base)
        .arg(&to)
        .status()
        .expect("cp is run");
    assert!(done.success());
    for change in &edit.changes {
        let path = to.join("crates").join(&change.file);
        let text = read(&path);
        assert_eq!(
            text.matches(&change.old).count(),
            1,
            "{}: {}: {}",
            edit.name,
            change.file,
            change.old
        );
        fs::write(&path, text.replace(&change.old, &change.new)).expect("the edit");
    }
    to
}

/// Whether what is said refuses this file of `agreement` for itself, and not
/// for another refused thing that it rests on.
fn refuses(said: &str, file: &str) -> bool {
    let place = file.replacen("agreement", ".", 1) + ":";
    said.lines().any(|line| {
        line.starts_with(&place) && line.contains(": error: ") && !line.contains(" not checked: ")
    })
}

/// What is wrong with how an edit is refused: the crates below must be
/// proved, and the file that it names must be among what is refused.
fn fault(base: &Path, edit: &Joint) -> Option<String> {
    let copy = edited(base, edit);
    let (ok, said) = proved(&copy);
    let _ = fs::remove_dir_all(&copy);
    let below = said.contains("did not build");
    let first = said
        .lines()
        .find(|line| line.contains("error"))
        .unwrap_or("no error");
    (ok || below || !refuses(&said, &edit.refused)).then(|| format!("{}: {first}", edit.name))
}

/// A folder outside the repository, whose own check reads every file in it;
/// it is removed at the end.
struct Folder(PathBuf);

impl Folder {
    fn new() -> Self {
        let path = env::temp_dir().join(format!("joint-{}", process::id()));
        let _ = fs::remove_dir_all(&path);
        Self(path)
    }
}

impl Drop for Folder {
    fn drop(&mut self) {
        let _ = fs::remove_dir_all(&self.0);
    }
}

#[test]
fn each_joint_edit_is_refused_by_its_theorem() {
    if Command::new("rt").arg("version").output().is_err() {
        println!("rt is not at hand: the joint edits are left out");
        return;
    }
    let folder = Folder::new();
    let base = folder.0.join("base");
    without_code(&here().join("../../.."), &base);
    let (ok, said) = proved(&base);
    assert!(ok, "the definitions alone are not proved:\n{said}");
    let edits = joints();
    assert!(edits.len() > 3);
    let half = edits.len().div_ceil(2);
    let faults: Vec<String> = thread::scope(|scope| {
        let base = &base;
        let runs: Vec<_> = edits
            .chunks(half)
            .map(|part| {
                scope.spawn(move || {
                    part.iter()
                        .filter_map(|edit| fault(base, edit))
                        .collect::<Vec<_>>()
                })
            })
            .collect();
        runs.into_iter()
            .flat_map(|run| run.join().expect("a run"))
            .collect()
    });
    assert_eq!(faults, Vec::<String>::new());
}
