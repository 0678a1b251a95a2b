//! Texts and the records that they become.

mod common;

use common::{instructions, named, places, reasons, records, with};
use sleetgate::{Item, Operand, Place, read_record};
use x87rec::{Options, Wrong, passes, translate};

fn operands(line: &str) -> Vec<Operand> {
    let translated = records(&format!("10 {line}\n"));
    instructions(&translated).remove(0).operands
}

fn at_slot(width: u16, address: u32, slot: u32) -> Operand {
    Operand::memory(width, Place::Slot { address, slot })
}

fn wrong(text: &str) -> Wrong {
    let translated = translate(text, &Options::default());
    translated.map(|_| ()).expect_err("it is wrong")
}

const OBJDUMP: &str = "
filter:     file format elf32-i386


Disassembly of section .text:

00001139 <f>:
    1139:\t55                   \tpush   ebp
    113a:\t89 e5                \tmov    ebp,esp
    113c:\td9 45 08             \tfld    DWORD PTR [ebp+0x8]
    113f:\t83 7d 0c 00          \tcmp    DWORD PTR [ebp+0xc],0x0
    1143:\t74 02                \tje     1147 <f+0xe>
    1145:\tde c1                \tfaddp  st(1),st
    1147:\tdd 05 08 20 00 00    \tfld    QWORD PTR ds:0x2008
    114d:\tdd 84 98 10 00 00 \tfld    QWORD PTR [eax+ebx*4+0x10]
    1153:\t00 
    1154:\tc3                   \tret
\t...

00001160 <g>:
    1160:\td9 ee                \tfldz
    1162:\tc3                   \tret
";

#[test]
fn objdumps_text_becomes_records() {
    let translated = records(OBJDUMP);
    // The jump's target begins anew; after `ret` that needs no record.
    let names = ["fld", "faddp", "entry", "fld", "fld", "ret", "fldz", "ret"];
    assert_eq!(named(&translated), names);
    let insn = instructions(&translated);
    assert_eq!(insn[0].operands, [at_slot(32, 1, 1)]);
    assert_eq!(insn[1].operands, ["st(1)", "st(0)"].map(Operand::register));
    assert_eq!((insn[2].address, insn[3].address), (0x1147, 0x1147));
    assert_eq!(insn[3].operands, [Operand::memory(64, Place::Address(2))]);
    assert_eq!(insn[4].operands, [Operand::memory(64, Place::Address(3))]);
    assert_eq!(
        translated.to_string(),
        "11 instructions, 8 records, 1 of them for entries; passed over: cmp 1, je 1, mov 1, push 1"
    );
    assert_eq!(
        places(&translated),
        ["[esp0+0x4]", "[0x2008]", "[eax+ebx*4+0x10]"]
    );
    let texts: Vec<&str> = translated
        .notes
        .records()
        .map(|(_, r)| r.text.as_str())
        .collect();
    assert_eq!(texts[1], "faddp st(1), st");
}

#[test]
fn one_function_can_be_taken() {
    let text = OBJDUMP.replace("<g>", "<g@@Base>") + "\n00001170 <h@V1>:\n1170: fld1\n";
    let wanted = |name: &str| {
        let options = Options {
            function: Some(name.to_owned()),
            ..Options::default()
        };
        translate(&text, &options)
    };
    for name in ["g", "g@@Base", "0x1160"] {
        assert_eq!(named(&wanted(name).expect(name)), ["fldz", "ret"]);
    }
    assert_eq!(named(&wanted("h").expect("it is there")), ["fld1"]);
    assert_eq!(named(&wanted("f").expect("it is there"))[2], "entry");
    let why = wanted("gg").expect_err("it is not there").to_string();
    assert_eq!(
        why,
        "there is no function `gg`; the nearest names are g, f, h"
    );
    let twice = text.clone() + "\n00001180 <h@V2>:\n1180: fldz\n";
    let options = Options {
        function: Some("h".to_owned()),
        ..Options::default()
    };
    let why = translate(&twice, &options)
        .expect_err("which one?")
        .to_string();
    let expected = "`h` stands there 2 times: say which by its address, of 0x1170, 0x1180";
    assert_eq!(why, expected);
}

#[test]
fn every_instruction_can_become_a_record() {
    let options = Options {
        every: true,
        ..Options::default()
    };
    let translated = with(OBJDUMP, &options);
    assert_eq!(instructions(&translated).len(), 12);
    assert!(translated.passed.is_empty());
}

#[test]
fn the_bytes_are_read_back() {
    let translated = records(OBJDUMP);
    let (bytes, mut at) = (translated.bytes(), 0);
    for insn in instructions(&translated) {
        let Ok(Item::Record { insn: got, next }) = read_record(&bytes, at) else {
            panic!("a record stands at {at}")
        };
        assert_eq!(got, insn);
        at = next;
    }
    assert_eq!(read_record(&bytes, at), Ok(Item::End));
}

#[test]
fn plain_lines_are_read() {
    let text = "# a comment\n401000 fld dword [ebp-8]\n0x401003: FSTP st(1) # out\n\n";
    let translated = records(text);
    assert_eq!(named(&translated), ["fld", "fstp"]);
    assert_eq!(instructions(&translated)[1].address, 0x40_1003);
}

#[test]
fn other_disassemblers_are_read() {
    let expected = [
        (0x0804_9000, "fld", "[esp0+0x4]"),
        (0x0804_9004, "fadd", ""),
        (0x0804_9006, "fstp", "[eax+ecx*8-0x8]"),
    ];
    let llvm = "\nfilter:\tfile format elf32-i386\n\nDisassembly of section .text:\n\n\
                08049000 <f>:\n\
                \x20 8049000: dd 44 24 04                  \tfld\tqword ptr [esp + 4]\n\
                \x20 8049004: d8 c0                        \tfadd\tst, st(0)\n\
                \x20 8049006: dd 5c c8 f8                  \tfstp\tqword ptr [eax + 8*ecx - 8]\n";
    let gdb = "Dump of assembler code for function f:\n\
               \x20  0x08049000 <+0>:\tfld    QWORD PTR [esp+0x4]\n\
               => 0x08049004 <+4>:\tfadd   st,st(0)\n\
               \x20  0x08049006 <f+6>:\tdd 5c c8 f8\tfstp   QWORD PTR [eax+ecx*8-0x8]\n\
               End of assembler dump.\n";
    let blanks = "08049000 <f>:\n\
                  \x20 8049000:  dd 44 24 04    fld    QWORD PTR [esp+0x4]\n\
                  \x20 8049004:  d8 c0          fadd   st0,st0\n\
                  \x20 8049006:  dd 5c c8 f8    fstp   QWORD PTR [eax+ecx*8-0x8]\n";
    for text in [llvm, gdb, blanks] {
        let translated = records(text);
        let read: Vec<_> = instructions(&translated)
            .iter()
            .map(|insn| (insn.address, insn.mnemonic.clone()))
            .collect();
        let names = expected.map(|(address, name, _)| (address, name.to_owned()));
        assert_eq!(read, names, "{text}");
        assert_eq!(
            places(&translated),
            [expected[0].2, expected[2].2],
            "{text}"
        );
        let sum = &instructions(&translated)[1].operands;
        assert_eq!(
            *sum,
            [Operand::register("st(0)"), Operand::register("st(0)")]
        );
    }
}

#[test]
fn odd_lines_of_other_disassemblers_are_read() {
    let template = records("0x10 <f<int>(double)>:\tfld1\n");
    assert_eq!(named(&template), ["fld1"]);
    assert_eq!(named(&records("10: 0f ff \t<unknown>\n")), ["<unknown>"]);
    let range = "Dump of assembler code for function f:\nAddress range 0x10 to 0x12:\n\
                 \x20  0x10 <+0>:\tfld1\nEnd of assembler dump.\n";
    assert_eq!(named(&records(range)), ["fld1"]);
}

#[test]
fn relocations_name_their_symbols() {
    let text = "00000000 <f>:\n\
                \x20  0:\tdd 05 00 00 00 00    \tfld    QWORD PTR ds:0x0\n\
                \t\t\t2: R_386_32\ta\n\
                \x20  6:\tdc 05 08 00 00 00    \tfadd   QWORD PTR ds:0x8\n\
                \t\t\t8: R_386_32\tb\n\
                \x20  c:\tdc 83 00 00 00 00    \tfadd   QWORD PTR [ebx+0x0]\n\
                \t\t\te: R_386_GOTOFF\t.LC0\n\
                \x20 12:\te8 fc ff ff ff       \tcall   13 <f+0x13>\n\
                \t\t\t13: R_386_PC32\tg\n\
                \x20 17:\tc3                   \tret\n";
    let translated = records(text);
    assert_eq!(places(&translated), ["[a]", "[b+0x8]", "[.LC0@GOTOFF+ebx]"]);
    let call = translated.notes.records().nth(3).expect("the call").1;
    assert_eq!(call.text, "call g");
    // 64-bit code counts from the next instruction.
    let long = "0 fld QWORD PTR [rip+0x0]        # 6 <f+0x6>\n\
                2: R_X86_64_PC32 x-0x4\n6 fld QWORD PTR [rip+0x0]\n\
                8: R_X86_64_PC32 y+0x4\nc ret\n";
    assert_eq!(places(&records(long)), ["[x]", "[y+0x8]"]);
    let coff = "0 fld QWORD PTR ds:0x0\n2: dir32 _x\n6 call b\n7: DISP32 _g\nb ret\n";
    assert_eq!(places(&records(coff)), ["[_x]"]);
    assert_eq!(wrong("2: R_386_32 a\n").line, 1);
}

#[test]
fn addresses_that_no_linker_put_in_are_told_apart() {
    let text = "0 fld DWORD PTR ds:0x0\n6 fadd DWORD PTR ds:0x0\nc fadd DWORD PTR ds:0x804a000\n";
    let told = ["[unlinked of 0]", "[unlinked of 6]", "[0x804a000]"];
    assert_eq!(places(&records(text)), told);
}

#[test]
fn what_is_too_long_is_refused_with_words() {
    let lines: String = (0..1_100).map(|at| format!("{at:x} fld1\n")).collect();
    let why = wrong(&lines).to_string();
    assert!(
        why.contains("the 16384 bytes that x87lift takes: take one function"),
        "{why}"
    );
}

#[test]
fn operands_have_their_kinds() {
    assert_eq!(operands("fnstsw ax"), [Operand::register("ax")]);
    assert_eq!(
        operands("fadd st,st(3)"),
        ["st(0)", "st(3)"].map(Operand::register)
    );
    assert_eq!(operands("call 1030 <g(int, int)>"), [Operand::Other]);
    assert_eq!(operands("int 0x80"), [Operand::Other]);
    assert_eq!(operands("fldenv [esp]"), [at_slot(0, 1, 1)]);
    assert_eq!(operands("fxch st3"), [Operand::register("st(3)")]);
    assert_eq!(
        operands("ds fld QWORD PTR [rax]"),
        [Operand::memory(64, Place::Unknown)]
    );
    assert_eq!(operands("vblendvps a,b,c,d"), [Operand::Other]);
}

#[test]
fn more_operands_than_a_record_holds_are_told() {
    let told = records("0 fld a,b,c,d\n2 fld a,b,c\n4 vblendvps a,b,c,d\n");
    let why = "0 it has 4 operands, and no name takes so many";
    assert_eq!(reasons(&told), [why]);
}

#[test]
fn what_is_not_known_to_pass_is_a_record() {
    for line in [
        "emms",
        "movq mm0,QWORD PTR [eax]",
        "PXOR MM0,MM0",
        "call 10",
        "jmp 10",
        "(bad)",
        ".byte 0xff",
        "wait",
        "fwait",
        "xrstor [eax]",
        "frobnicate eax",
        "ret",
    ] {
        let translated = records(&format!("10 fld1\n12 {line}\n"));
        assert_eq!(instructions(&translated).len(), 2, "{line}");
    }
    for line in [
        "mov eax,1",
        "movq xmm0,QWORD PTR [eax]",
        "jne 20",
        "cmovbe eax,ebx",
        "setp al",
        "nop WORD PTR cs:[rax+rax*1+0x0]",
        "rep stos DWORD PTR es:[edi],eax",
    ] {
        let translated = records(&format!("10 fld1\n12 {line}\n"));
        assert_eq!(instructions(&translated).len(), 1, "{line}");
    }
    assert!(!passes("fld1", &[]) && !passes("jmp", &[]));
}

#[test]
fn wrong_lines_are_named() {
    let at = |line, why: &str| Wrong {
        line,
        why: why.to_owned(),
    };
    assert_eq!(
        wrong("0 fld1\n\nint main(void) {\n"),
        at(3, "`int main(void) {` is no line of a disassembly")
    );
    assert_eq!(
        wrong("0 fld1\n10: flds (%eax)\n"),
        at(2, "AT&T syntax: use objdump -d -M intel")
    );
    assert_eq!(wrong("0 fadd st,,st(1)\n"), at(1, "an empty operand"));
    assert_eq!(wrong("0 !x\n"), at(1, "`!x` is no name of an instruction"));
    let long = "f".repeat(33);
    assert_eq!(wrong(&format!("0 {long}\n")).line, 1);
    assert_eq!(wrong("0 st(1)é\n").line, 1);
}
