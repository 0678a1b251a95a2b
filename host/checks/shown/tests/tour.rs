//! The tour: from the stored disassembly to the stored formulas.

use std::fs;
use std::io::Write as _;
use std::path::Path;

use program::{MISSING, Program};
use x87rec::{Options, Take, translate};
use x87show::show;

fn stored(name: &str) -> String {
    let path = Path::new(env!("CARGO_MANIFEST_DIR"))
        .join("../../tools/tour")
        .join(name);
    fs::read_to_string(path).expect("the file is there")
}

/// Past the test harness's capture.
fn left_out(why: &str) {
    // A line that cannot be written is no reason to fail.
    let _ = writeln!(std::io::stderr(), "left out: {why}");
}

/// A jump that is taken each time.
fn always(address: u64) -> Take {
    let decisions = None;
    Take { address, decisions }
}

/// The ways through the routines, as they are asked for.
fn ways() -> [(&'static str, &'static str, Options); 4] {
    let path = |taken: &[u64]| Options {
        path: Some(taken.iter().map(|&address| always(address)).collect()),
        ..Options::default()
    };
    let function = Options {
        function: Some("tilt_step".to_owned()),
        ..Options::default()
    };
    [
        ("quaternion", "--path", path(&[])),
        ("filter", "--path --take 804902e", path(&[0x0804_902e])),
        ("filter", "--path", path(&[])),
        ("filter", "--function tilt_step", function),
    ]
}

/// What `run.sh` prints, of these disassemblies.
fn told(program: &Program, objdump: impl Fn(&str) -> String) -> String {
    let told = ways().map(|(name, words, options)| {
        let records = translate(&objdump(name), &options).expect("the disassembly is read");
        let listing = program.listing(&records.bytes()).expect("the program runs");
        let listing = String::from_utf8(listing).expect("a listing is text");
        let shown = show(&listing, Some(&records.notes)).expect("it is a listing");
        let text = shown.text;
        format!(
            "$ x87rec {words} --names names < {name}.objdump | x87lift | x87show --names names\n{text}"
        )
    });
    told.join("\n")
}

fn disassembly(name: &str) -> String {
    stored(&format!("{name}.objdump"))
}

#[test]
fn the_tour_is_as_stored() {
    let Some(program) = Program::at_hand() else {
        left_out(MISSING);
        return;
    };
    assert_eq!(told(&program, disassembly), stored("expected.txt"));
}

/// A filter that restarts without `fprem` would tell something else, and
/// so would another order of its operands.
#[test]
fn another_filter_has_another_tour() {
    let Some(program) = Program::at_hand() else {
        left_out(MISSING);
        return;
    };
    for (from, to) in [
        ("\tfprem\n", "\tfabs\n"),
        ("\tfsub   st,st(1)\n", "\tfsubr  st,st(1)\n"),
        ("fstp   DWORD PTR [edx+0x4]", "fstp   DWORD PTR [edx+0x8]"),
        ("jmp    8049045", "jmp    8049047"),
    ] {
        assert!(disassembly("filter").contains(from), "{from}");
        let other = |name: &str| disassembly(name).replace(from, to);
        assert_ne!(told(&program, other), stored("expected.txt"), "{from}");
    }
}

/// Where the filter restarts, the stored formulas reach no sample.
#[test]
fn the_stack_is_forgotten_at_the_restart() {
    let expected = stored("expected.txt");
    let restart = expected.split("$ x87rec ").nth(3).expect("the third way");
    let gap = "fprem: the lifter does not know the name fprem: the stack is forgotten here";
    let (_, behind) = restart.split_once(gap).expect("a gap");
    assert!(behind.contains("[edx] := f32(in0)\n"), "{behind}");
    for loaded in ["s1", "s2", "m0", "m1", "m2", "t1"] {
        assert!(!behind.contains(loaded), "{loaded} in {behind}");
    }
}

/// What README shows of the tour is in it.
#[test]
fn readme_shows_lines_of_the_tour() {
    let path = Path::new(env!("CARGO_MANIFEST_DIR")).join("../../../README.md");
    let readme = fs::read_to_string(path).expect("the file is there");
    let tour = stored("expected.txt");
    let tour: Vec<&str> = tour.lines().collect();
    let shown = readme.lines().filter(|line| {
        let address = line.split_once(": ").map_or("", |(address, _)| address);
        let told = address.len() == 7 && address.bytes().all(|b| b.is_ascii_hexdigit());
        told || line.starts_with("$ x87rec") || line.starts_with("-- ")
    });
    let shown: Vec<&str> = shown.collect();
    assert!(shown.len() > 15, "{shown:?}");
    for line in shown {
        assert!(tour.contains(&line), "{line}");
    }
}
