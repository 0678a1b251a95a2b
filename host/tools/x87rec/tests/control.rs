//! The control word, and what is lifted under it.

mod common;

use common::{named, path, reasons, records, remarks, with};
use x87rec::{Options, Translated};

/// The way through some lines without addresses.
fn way(lines: &[&str]) -> Translated {
    let text: String = lines
        .iter()
        .enumerate()
        .map(|(at, line)| format!("{:x} {line}\n", 16 * at))
        .collect();
    with(&text, &path(&[]))
}

/// The compilers' truncation, with these lines in the place of the one
/// that sets the rounding.
fn idiom(set: &[&str], between: &[&str]) -> Translated {
    let mut lines = vec!["sub esp,0xc", "fnstcw WORD PTR [esp+0x6]"];
    lines.extend(set);
    lines.extend(["mov WORD PTR [esp+0x4],ax", "fldcw WORD PTR [esp+0x4]"]);
    lines.extend(between);
    lines.extend([
        "fldcw WORD PTR [esp+0x6]",
        "fadd st,st(1)",
        "add esp,0xc",
        "ret",
    ]);
    way(&lines)
}

const OR: [&str; 2] = ["movzx eax,WORD PTR [esp+0x6]", "or ah,0xc"];

#[test]
fn the_compilers_truncation_is_known() {
    let sets: [&[&str]; 6] = [
        &OR,
        &["mov ax,WORD PTR [esp+0x6]", "or ax,0xc00"],
        &["mov eax,DWORD PTR [esp+0x6]", "or eax,0xc00"],
        &["movzx eax,WORD PTR [esp+0x6]", "mov ah,0xc"],
        &["movzx edx,WORD PTR [esp+0x6]", "or dh,0xc", "mov eax,edx"],
        &["movzx eax,WORD PTR [esp+6]", "or eax,3072"],
    ];
    for set in sets {
        let told = idiom(set, &["fistp DWORD PTR [esp]"]);
        assert_eq!(named(&told), ["fisttp", "fadd"], "{set:?}");
        assert_eq!(reasons(&told), Vec::<String>::new());
        let words = remarks(&told);
        assert!(words[0].contains("rounds toward zero"), "{words:?}");
        assert!(words[1].ends_with("is lifted as fisttp"), "{words:?}");
        assert!(words[2].ends_with("is that of the entry"), "{words:?}");
    }
    let memory = way(&[
        "fnstcw WORD PTR [ebp-0x2]",
        "mov ax,WORD PTR [ebp-0x2]",
        "mov WORD PTR [ebp-0x4],ax",
        "or BYTE PTR [ebp-0x3],0xc",
        "fldcw WORD PTR [ebp-0x4]",
        "fistp QWORD PTR [esp]",
    ]);
    assert_eq!(named(&memory), ["fisttp"]);
}

#[test]
fn other_roundings_are_declined_and_named() {
    let floor = ["movzx eax,WORD PTR [esp+0x6]", "and ah,0xf3", "or ah,0x4"];
    let told = idiom(&floor, &["frndint", "fistp DWORD PTR [esp]"]);
    assert_eq!(named(&told), ["?frndint", "?fistp", "fadd"]);
    let expected = "it rounds down, as floor does, since fldcw at 60 loaded the control word";
    assert_eq!(
        reasons(&told),
        [format!("70 {expected}"), format!("80 {expected}")]
    );
    let ceiling = ["movzx eax,WORD PTR [esp+0x6]", "and ah,0xf3", "or ah,0x8"];
    let told = idiom(&ceiling, &["frndint"]);
    assert!(reasons(&told)[0].contains("rounds up, as ceil does"));
    // A `fist` that truncates has no name that keeps the value.
    let told = idiom(
        &OR,
        &[
            "fist DWORD PTR [esp]",
            "fadd st,st(1)",
            "fst DWORD PTR [esp]",
        ],
    );
    assert_eq!(named(&told), ["?fist", "?fadd", "?fst", "fadd"]);
}

#[test]
fn what_does_not_depend_on_the_word_stays() {
    let lines = [
        "fldcw WORD PTR [eax]",
        "fld QWORD PTR [ecx]",
        "fild DWORD PTR [ecx]",
        "fld1",
        "fabs",
        "fchs",
        "fxch st(1)",
        "fcom st(1)",
        "fcomi st,st(1)",
        "fcmovb st,st(1)",
        "fst st(1)",
        "fnstsw ax",
        "fisttp DWORD PTR [ecx]",
        "fstp TBYTE PTR [ecx]",
    ];
    let told = way(&lines);
    assert!(
        named(&told).iter().all(|name| name.starts_with('f')),
        "{:?}",
        named(&told)
    );
    assert_eq!(reasons(&told), Vec::<String>::new());
}

#[test]
fn a_word_from_elsewhere_is_not_known() {
    let depends = [
        "fadd st,st(1)",
        "fsubrp st(1),st",
        "fidivr DWORD PTR [ecx]",
        "fsqrt",
        "frndint",
        "fist DWORD PTR [ecx]",
        "fistp QWORD PTR [ecx]",
        "fst DWORD PTR [ecx]",
        "fstp QWORD PTR [ecx]",
    ];
    let changes = [
        "fldcw WORD PTR [eax]",
        "fldenv [eax]",
        "frstor [eax]",
        "call 5000 <fesetround@plt>",
        "call 5000 <__imp__controlfp>",
        "fldcw WORD PTR gs:0x10",
        "fldcw cw",
        "int 0x80",
        "frobnicate",
    ];
    for change in changes {
        for line in depends {
            let told = way(&[change, line]);
            let last = named(&told).pop().expect("a record");
            assert!(last.starts_with('?'), "{change} {line}: {last}");
            let why = reasons(&told).pop().expect("a reason");
            let begin = "10 its rounding is not known, since ";
            assert!(why.starts_with(begin) && why.contains(" at 0 "), "{why}");
        }
    }
    for kept in [
        "fninit",
        "emms",
        "call 5000 <sin@plt>",
        "paddd xmm0,xmm1",
        "mov eax,0",
    ] {
        let told = way(&[kept, "fadd st,st(1)"]);
        assert_eq!(named(&told).pop().as_deref(), Some("fadd"), "{kept}");
    }
}

#[test]
fn precision_counts_for_what_computes() {
    let lines = |word: &'static str| {
        [
            word,
            "fldcw WORD PTR [esp]",
            "fadd st,st(1)",
            "fsqrt",
            "fistp DWORD PTR [ecx]",
            "fst DWORD PTR [ecx]",
        ]
    };
    let told = way(&lines("mov WORD PTR [esp],0x27f"));
    assert_eq!(named(&told), ["?fadd", "?fsqrt", "fistp", "fst"]);
    assert!(reasons(&told)[0].contains("rounded to 53 bits"));
    let told = way(&lines("mov WORD PTR [esp],0x37f"));
    assert_eq!(named(&told), ["fadd", "fsqrt", "fistp", "fst"]);
}

#[test]
fn a_constant_word_can_be_pushed() {
    let told = way(&[
        "push 0xf7f",
        "fldcw WORD PTR [esp]",
        "fistp DWORD PTR [ecx]",
    ]);
    assert_eq!(named(&told), ["fisttp"]);
}

#[test]
fn a_stored_word_that_may_have_changed_is_not_taken() {
    let saved = |between: &'static [&'static str]| {
        let mut lines = vec!["sub esp,0xc", "fnstcw WORD PTR [esp+0x6]"];
        lines.extend(between);
        lines.extend(["fldcw WORD PTR [esp+0x6]", "fadd st,st(1)"]);
        way(&lines)
    };
    let kept: [&[&str]; 3] = [
        &["mov DWORD PTR [esp+0x8],eax"],
        &["mov DWORD PTR [esp+0x2],eax"],
        &["push eax", "pop ecx"],
    ];
    for lines in kept {
        assert_eq!(named(&saved(lines)), ["fadd"], "{lines:?}");
    }
    let lost: [&[&str]; 5] = [
        &["mov DWORD PTR [esp+0x4],eax"],
        &["mov BYTE PTR [esp+0x7],al"],
        &["mov DWORD PTR [esp+eax*4],ecx"],
        &["lea eax,[esp+0x6]", "mov DWORD PTR [eax+ecx*1],edx"],
        &["fst QWORD PTR [esp]"],
    ];
    for lines in lost {
        let names = named(&saved(lines));
        assert_eq!(names.last().map(String::as_str), Some("?fadd"), "{lines:?}");
    }
    // A store through a pointer is told beside the word.
    let words = remarks(&saved(&["mov DWORD PTR [ecx],edx"]));
    let expected = "30 fldcw WORD PTR [esp+0x6]: from here on the control word is that of the \
                    entry, if no store from 20 on went where that word was kept";
    assert_eq!(words[0], expected);
}

#[test]
fn the_reset_word_can_be_assumed() {
    let text = "0 fldcw WORD PTR [eax]\n2 fistp DWORD PTR [ecx]\n4 fnstcw WORD PTR [eax]\n";
    let options = Options {
        assume_reset: true,
        ..path(&[])
    };
    let told = with(text, &options);
    assert_eq!(named(&told), ["fldcw", "fistp", "fnstcw"]);
    assert!(told.notes.head[0].starts_with("assume-reset: "));
    assert!(records(text).notes.head[0].starts_with("assumed: on entry the control word"));
}

#[test]
fn in_a_whole_text_all_ways_count() {
    // One way to 20 truncates, the other does not.
    let text = "0 mov WORD PTR [esp-0x2],0xf7f\n4 je 20\n8 fldcw WORD PTR [esp-0x2]\n\
                c fadd st,st(1)\n20 fadd st,st(1)\n24 ret\n30 fadd st,st(1)\n";
    let told = records(text);
    assert_eq!(
        named(&told),
        ["?fadd", "?fadd", "ret", "fadd"].map(str::to_owned)
    );
}

/// The last name on a way that ends in `fldcw` of `[esp-0x4]` and an
/// addition.
fn behind(lines: &[&'static str]) -> String {
    let mut all = lines.to_vec();
    all.extend(["fldcw WORD PTR [esp-0x4]", "fadd st,st(1)"]);
    named(&way(&all)).pop().expect("a record")
}

#[test]
fn a_part_of_a_word_is_not_the_word() {
    let store = "fnstcw WORD PTR [esp-0x2]";
    let put = "mov WORD PTR [esp-0x4],ax";
    assert_eq!(
        behind(&[store, "movzx eax,WORD PTR [esp-0x2]", put]),
        "fadd"
    );
    assert_eq!(
        behind(&[store, "movzx eax,BYTE PTR [esp-0x2]", put]),
        "?fadd"
    );
    assert_eq!(behind(&[store, "mov al,BYTE PTR [esp-0x2]", put]), "?fadd");
    assert_eq!(
        behind(&["fnstcw WORD PTR [esp]", "pop DWORD PTR [esp-0x4]"]),
        "?fadd"
    );
    assert_eq!(
        behind(&["fnstcw WORD PTR [esp-0x4]", "bts DWORD PTR [esp-0x40],eax"]),
        "?fadd"
    );
    assert_eq!(
        behind(&["fnstcw WORD PTR [esp-0x4]", "bts DWORD PTR [esp-0x40],0x3"]),
        "fadd"
    );
    assert_eq!(
        behind(&["fnstcw WORD PTR [esp-0x4]", "fxsave [esp-0x100]"]),
        "?fadd"
    );
    let relocated = "0 mov WORD PTR [esp-0x4],0x37f\n2: R_386_16 x\n8 fldcw WORD PTR [esp-0x4]\n\
                     c fadd st,st(1)\n";
    assert_eq!(named(&with(relocated, &path(&[]))), ["?fadd"]);
    // The symbol is what is stored, and not where.
    let stored = "0 fnstcw WORD PTR [esp+0x4]\n4 mov DWORD PTR [esp],0x0\n7: R_386_32 x\n\
                  b fldcw WORD PTR [esp+0x4]\nf fadd st,st(1)\n";
    assert_eq!(named(&with(stored, &path(&[]))), ["fadd"]);
}

#[test]
fn a_changed_byte_is_a_store_like_others() {
    let lines = [
        "lea ecx,[esp+edx*4]",
        "fnstcw WORD PTR [ecx]",
        "fnstcw WORD PTR [esp+0x4]",
        "or BYTE PTR [ecx+0x1],0xc",
        "fldcw WORD PTR [esp+0x4]",
        "fadd st,st(1)",
    ];
    assert_eq!(named(&way(&lines)), ["?fadd"]);
}

#[test]
fn what_a_word_was_kept_across_is_not_lost_when_it_is_moved() {
    let words = remarks(&way(&[
        "fnstcw WORD PTR [esp-0x2]",
        "mov DWORD PTR [ecx],edx",
        "mov ax,WORD PTR [esp-0x2]",
        "mov WORD PTR [esp-0x4],ax",
        "fldcw WORD PTR [esp-0x4]",
    ]));
    assert!(
        words[0].ends_with("if no store from 10 on went where that word was kept"),
        "{words:?}"
    );
}

#[test]
fn what_one_of_two_ways_crossed_is_told_where_they_meet() {
    let text = "00000000 <f>:\n0 fnstcw WORD PTR [esp-0x2]\n4 je a\n8 mov DWORD PTR [eax],ecx\n\
                a fldcw WORD PTR [esp-0x2]\ne ret\n";
    let words = remarks(&records(text));
    let loaded = words.iter().find(|words| words.contains("from here on"));
    let condition = "if no store from 8 on went where that word was kept";
    assert!(
        loaded.is_some_and(|words| words.ends_with(condition)),
        "{words:?}"
    );
}
