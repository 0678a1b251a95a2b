//! Places of memory, and the stack pointer that they are counted from.

mod common;

use common::{path, places, records, remarks, with};

/// The places on the way through some lines.
fn on_way(lines: &[&str]) -> Vec<String> {
    places(&with(&text(lines), &path(&[])))
}

fn text(lines: &[&str]) -> String {
    let numbered = lines.iter().enumerate();
    numbered
        .map(|(at, line)| format!("{:x} {line}\n", 16 * at))
        .collect()
}

#[test]
fn one_place_on_the_stack_has_one_name() {
    let lines = [
        "push ebp",
        "mov ebp,esp",
        "sub esp,0x18",
        "fld QWORD PTR [ebp+0x8]",
        "fstp QWORD PTR [esp+0x8]",
        "push eax",
        "fld QWORD PTR [esp+0xc]",
        "pop eax",
        "lea ecx,[esp+0x8]",
        "fadd QWORD PTR [ecx]",
        "add esp,0x10",
        "fstp QWORD PTR [esp-0x8]",
        "leave",
        "fld QWORD PTR [esp+0x4]",
        "ret",
    ];
    let local = "[esp0-0x14]";
    let expected = ["[esp0+0x4]", local, local, local, local, "[esp0+0x4]"];
    assert_eq!(on_way(&lines), expected);
}

#[test]
fn a_stack_pointer_that_is_not_known_is_one_of_its_own() {
    let lines = [
        "fld QWORD PTR [esp+0x4]",
        "and esp,0xfffffff0",
        "fstp QWORD PTR [esp+0x4]",
        "mov esp,eax",
        "fld QWORD PTR [esp+0x4]",
    ];
    assert_eq!(
        on_way(&lines),
        ["[esp0+0x4]", "[esp@10+0x4]", "[esp@30+0x4]"]
    );
}

#[test]
fn a_call_that_took_nothing_is_known_by_the_return() {
    let calls = |add: &'static str| {
        [
            "sub esp,0x8",
            "fstp QWORD PTR [esp]",
            "push eax",
            "call 900",
            "fld QWORD PTR [esp+0x4]",
            add,
            "ret",
        ]
    };
    let place = "[esp0-0x8]";
    assert_eq!(on_way(&calls("add esp,0xc")), [place, place]);
    // One call that takes its argument: the return tells so.
    assert_eq!(on_way(&calls("add esp,0x8")), [place, "[esp0-0x4]"]);
    // Nothing tells: the stack pointer is not known behind the call.
    let told = with(&text(&calls("mov esp,ecx")), &path(&[]));
    assert_eq!(places(&told), [place, "[esp@30+0x4]"]);
    let words = remarks(&told);
    let doubt = "30 call 900: may take its arguments from the stack: esp is not known behind it, \
                 and places are counted from esp@30";
    assert!(words.contains(&doubt.to_owned()), "{words:?}");
    let two = [
        "push eax",
        "call 900",
        "push eax",
        "call 900",
        "fld DWORD PTR [esp]",
        "add esp,0x4",
        "ret",
    ];
    assert_eq!(on_way(&two), ["[esp@30]"]);
}

#[test]
fn a_call_to_the_next_line_pushes() {
    let lines = "0 call 5\n5 pop ebx\n6 fld DWORD PTR [esp+0x4]\n8 fld DWORD PTR [ebx]\na ret\n";
    assert_eq!(places(&with(lines, &path(&[]))), ["[esp0+0x4]", "[ebx]"]);
}

#[test]
fn a_call_into_the_text_takes_what_its_returns_say() {
    let lines = "0 push eax\n2 call 20\n4 fld DWORD PTR [esp]\n6 jmp eax\n20 nop\n22 ret 0x4\n";
    assert_eq!(places(&with(lines, &path(&[]))), ["[esp0]"]);
    let named = "0 push eax\n2 call 3\n3: R_386_PC32 g\n7 fld DWORD PTR [esp]\n9 jmp eax\n\
                 00000020 <g>:\n20 ret 0x4\n";
    assert_eq!(places(&with(named, &path(&[]))), ["[esp0]"]);
    let long = "0 push rax\n2 call 900\n4 fld QWORD PTR [rsp+0x8]\n6 jmp rax\n";
    assert_eq!(places(&with(long, &path(&[]))), ["[rsp0]"]);
}

#[test]
fn registers_are_told_apart_where_they_changed() {
    let changed = [
        "fld QWORD PTR [eax]",
        "add eax,0x8",
        "fld QWORD PTR [eax]",
        "fld QWORD PTR [EAX]",
        "fld QWORD PTR [ecx+edx*8]",
    ];
    assert_eq!(
        on_way(&changed),
        ["[eax]", "[eax@10]", "[eax@10]", "[ecx+edx*8]"]
    );
    // Where one value alone is used, its text is that of the code.
    let loaded = ["mov eax,DWORD PTR [esp+0x4]", "fld QWORD PTR [eax]"];
    assert_eq!(on_way(&loaded), ["[eax]"]);
    let called = [
        "fld QWORD PTR [eax]",
        "call 900",
        "fld QWORD PTR [eax]",
        "fld QWORD PTR [ebx]",
    ];
    assert_eq!(on_way(&called), ["[eax]", "[eax@10]", "[ebx]"]);
    for line in [
        "xchg eax,ecx",
        "mul ecx",
        "pop eax",
        "lods eax,DWORD PTR ds:[esi]",
        "cdq",
    ] {
        let lines = ["fld QWORD PTR [eax]", line, "fld QWORD PTR [eax]"];
        assert_eq!(on_way(&lines), ["[eax]", "[eax@10]"], "{line}");
    }
    for line in [
        "cmp eax,ecx",
        "push eax",
        "test eax,eax",
        "mov ecx,eax",
        "je 20",
    ] {
        let lines = ["fld QWORD PTR [eax]", line, "fld QWORD PTR [eax]"];
        assert_eq!(on_way(&lines), ["[eax]", "[eax]"], "{line}");
    }
}

#[test]
fn in_a_whole_text_what_all_ways_agree_on_is_known() {
    let text = "00000000 <f>:\n0 push eax\n2 je 8\n4 mov ecx,edx\n8 fld DWORD PTR [esp+0x8]\n\
                a fld DWORD PTR [ecx]\nc pop eax\ne fld DWORD PTR [ecx]\n10 ret\n\
                00000020 <g>:\n20 fld DWORD PTR [esp+0x4]\n22 loop 20\n24 ret\n";
    let told = records(text);
    let expected = ["[esp0+0x4]", "[ecx]", "[ecx]", "[esp0+0x4]"];
    assert_eq!(places(&told), expected);
    // The two functions' places are two.
    assert_eq!(told.notes.addresses.len(), 3);
}

#[test]
fn a_segment_or_an_odd_address_is_not_known() {
    for line in [
        "fld DWORD PTR gs:0x14",
        "fld DWORD PTR [eax-ecx]",
        "ds fld DWORD PTR [eax]",
    ] {
        assert_eq!(on_way(&[line]), ["unknown"], "{line}");
    }
}

#[test]
fn integer_code_that_writes_where_x87_code_reads_is_told() {
    let lines = [
        "mov DWORD PTR [esp+0x8],eax",
        "fld QWORD PTR [esp+0x4]",
        "mov BYTE PTR [esp+0xb],al",
        "mov BYTE PTR [esp+0xc],al",
        "cmp DWORD PTR [esp+0x8],eax",
        "push eax",
        "fstp DWORD PTR [esp]",
        "inc DWORD PTR [ecx]",
        "fld DWORD PTR [ecx]",
    ];
    let told: Vec<String> = remarks(&with(&text(&lines), &path(&[])));
    let expected = [
        "0 mov DWORD PTR [esp+0x8], eax: writes to [esp0+0x4], which is not lifted",
        "20 mov BYTE PTR [esp+0xb], al: writes to [esp0+0x4], which is not lifted",
        "50 push eax: writes to [esp0-0x4], which is not lifted",
        "70 inc DWORD PTR [ecx]: writes to [ecx], which is not lifted",
    ];
    assert_eq!(told[..4], expected);
    assert_eq!(told.len(), 5);
}

#[test]
fn where_a_declined_store_goes_is_told() {
    let lines = [
        "fldcw WORD PTR [eax]",
        "fistp DWORD PTR [esp+0x4]",
        "fbstp TBYTE PTR gs:0x14",
    ];
    let told = with(&text(&lines), &path(&[]));
    let writes: Vec<_> = told
        .notes
        .records()
        .map(|(_, record)| record.writes)
        .collect();
    assert_eq!(writes, [Some(1), Some(0)]);
    assert_eq!(told.notes.addresses, ["[esp0+0x4]"]);
}

#[test]
fn a_part_of_a_stack_address_is_none() {
    for line in ["movzx ebx,sp", "mov bx,sp", "mov ebx,DWORD PTR [esp]"] {
        let lines = ["push ax", line, "fld DWORD PTR [ebx]"];
        assert_eq!(on_way(&lines), ["[ebx]"], "{line}");
    }
    let added = ["lea eax,[esp+0x8]", "add ah,0x4", "fld DWORD PTR [eax]"];
    assert_eq!(on_way(&added), ["[eax]"]);
}

#[test]
fn the_stack_pointer_behind_leave_and_pop_is_counted_from_there() {
    let leave = [
        "mov ebp,DWORD PTR [esp+0x4]",
        "leave",
        "fld DWORD PTR [esp]",
    ];
    assert_eq!(on_way(&leave), ["[esp@10]"]);
    assert_eq!(on_way(&["pop sp", "fld DWORD PTR [esp]"]), ["[esp@0]"]);
    let string = "movsd dword ptr es:[edi], dword ptr [esi]";
    let moved = ["fld DWORD PTR [edi]", string, "fld DWORD PTR [edi]"];
    assert_eq!(on_way(&moved), ["[edi]", "[edi@10]"]);
}

#[test]
fn huge_constants_wrap() {
    let add = "add esp,0x7fffffffffffffff";
    assert_eq!(on_way(&[add, add, "fld DWORD PTR [esp+0x2]"]), ["[esp0]"]);
    let far = [
        "fnstcw WORD PTR [esp+0x7fffffffffffffff]",
        "fnstcw WORD PTR [esp]",
        "fld1",
    ];
    assert_eq!(on_way(&far), Vec::<String>::new());
}

#[test]
fn a_frame_tells_nothing_of_its_calls() {
    let lines = [
        "push ebp",
        "mov ebp,esp",
        "sub esp,0x10",
        "push 0x1",
        "call 900",
        "fld QWORD PTR [esp]",
        "fld QWORD PTR [ebp-0x8]",
        "leave",
        "ret",
    ];
    assert_eq!(on_way(&lines), ["[esp@40]", "[esp0-0xc]"]);
    assert_eq!(places(&records(&text(&lines))), ["[esp@40]", "[esp0-0xc]"]);
}

#[test]
fn one_value_of_a_register_is_not_taken_for_another() {
    let lines = [
        "fld QWORD PTR [eax]",
        "mov eax,ebx",
        "fadd QWORD PTR [eax+0x8]",
    ];
    assert_eq!(on_way(&lines), ["[eax]", "[eax@10+0x8]"]);
}

#[test]
fn addresses_with_registers_may_not_be_linked_either() {
    let lines = [
        "fld QWORD PTR [eax*8+0x0]",
        "fadd QWORD PTR [eax*8+0x0]",
        "fadd QWORD PTR [ebx+0x0]",
        "fadd QWORD PTR [ebp+0x0]",
    ];
    let expected = [
        "[unlinked of 0+eax*8]",
        "[unlinked of 10+eax*8]",
        "[unlinked of 20+ebx]",
        "[ebp]",
    ];
    assert_eq!(on_way(&lines), expected);
    let long = "0 fld QWORD PTR [rip+0x0]        # 6 <f+0x6>\n6 ret\n";
    assert_eq!(places(&records(long)), ["[unlinked of 0]"]);
    let linked = "8049000 fld QWORD PTR [esi+0x0]\n8049003 ret\n";
    assert_eq!(places(&records(linked)), ["[esi]"]);
}

#[test]
fn a_jump_through_a_table_goes_where_the_text_does_not_tell() {
    let text = "00000000 <f>:\n0 sub esp,0x1c\n3 jmp DWORD PTR [eax*4+0x0]\n5: R_386_32 .rodata\n\
                9 fadd QWORD PTR [esp+0x20]\nd ret\n";
    let words = remarks(&with(text, &path(&[])));
    assert!(
        words[0].starts_with("3 jmp DWORD PTR [eax*4+0x0]: goes where the text"),
        "{words:?}"
    );
    let told = records(text);
    assert_eq!(places(&told).pop().as_deref(), Some("[esp0+0x4]"));
}

#[test]
fn a_way_does_not_cross_what_was_left_out() {
    let text = "00000000 <f>:\n0 fld1\n2 call 40 <abort>\n\t...\n00000010 <g>:\n10 fldz\n12 ret\n";
    let words = remarks(&with(text, &path(&[])));
    assert!(
        words[1].starts_with("2 call 40 <abort>: the text ends behind"),
        "{words:?}"
    );
}

#[test]
fn the_last_address_has_none_behind_it() {
    for options in [path(&[]), x87rec::Options::default()] {
        let told = with("ffffffffffffffff fld1\n", &options);
        assert_eq!(told.lines, 1);
    }
}

#[test]
fn a_cold_part_belongs_to_its_function() {
    let text = "00000000 <f>:\n0 sub esp,0x1c\n3 jne 100 <f.cold>\n5 fld QWORD PTR [esp+0x20]\n\
                9 add esp,0x1c\nc ret\n00000100 <f.cold>:\n100 fld QWORD PTR [esp+0x20]\n\
                104 add esp,0x1c\n107 ret\n";
    let one = "[esp0+0x4]";
    assert_eq!(places(&records(text)), [one, one]);
    let function = |name: &str| x87rec::Options {
        function: Some(name.to_owned()),
        ..path(&[])
    };
    let way = x87rec::Options {
        path: path(&[3]).path,
        ..function("f")
    };
    assert_eq!(places(&with(text, &way)), [one]);
    let why = x87rec::translate(text, &function("f.cold")).map(|_| ());
    let why = why.expect_err("it is no function").to_string();
    assert_eq!(why, "`f.cold` is a part of a function: take that");
}

#[test]
fn a_jump_with_a_moved_stack_pointer_is_no_tail_call() {
    let text = "00000000 <f>:\n0 push eax\n2 jmp 10 <g>\n00000010 <g>:\n\
                10 fld QWORD PTR [esp+0x8]\n12 ret\n";
    assert_eq!(places(&records(text)), ["[esp@@10+0x8]"]);
    let tail = text.replace("push eax", "nop");
    assert_eq!(places(&records(&tail)), ["[esp0+0x8]"]);
}

#[test]
fn a_line_that_nothing_leads_to_has_a_stack_pointer_of_its_own() {
    let text = "0 sub esp,0x1c\n3 jmp 9\n5 fld QWORD PTR [esp+0x20]\n9 add esp,0x1c\nc ret\n";
    assert_eq!(places(&records(text)), ["[esp@@5+0x20]"]);
}

#[test]
fn half_an_address_of_64_bits_is_none() {
    let lines = |line: &str| format!("0 {line}\n4 fld QWORD PTR [rax]\n8 fld QWORD PTR [rsp]\n");
    let told = |line: &str| places(&with(&lines(line), &path(&[])));
    assert_eq!(told("lea rax,[rsp+0x8]"), ["[rsp0+0x8]", "[rsp0]"]);
    assert_eq!(told("lea eax,[rsp+0x8]"), ["[rax]", "[rsp0]"]);
    assert_eq!(told("add rsp,0x8"), ["[rax]", "[rsp0+0x8]"]);
    assert_eq!(told("add esp,0x8"), ["[rax]", "[rsp@0]"]);
    assert_eq!(told("mov eax,esp"), ["[rax]", "[rsp0]"]);
}

#[test]
fn half_a_register_is_no_stack_address() {
    let lines = ["push ebp", "mov ebp,esp", "fld QWORD PTR [bp+0x8]"];
    assert_eq!(on_way(&lines), ["[bp+0x8]"]);
}

#[test]
fn what_a_call_may_write_is_told() {
    let lines = [
        "fstp QWORD PTR [esp-0x8]",
        "lea eax,[esp-0x8]",
        "call 900",
        "fld QWORD PTR [esp-0x8]",
        "ret",
    ];
    let told = with(&text(&lines), &path(&[]));
    let words = "20 call 900: may write to places on the stack: an address there was handed out";
    assert_eq!(remarks(&told)[0], words);
    let head = "a load takes what memory holds at that moment";
    assert!(told.notes.head.iter().any(|line| line.starts_with(head)));
    let string = [
        "lea edi,[esp+0x4]",
        "rep stos DWORD PTR es:[edi],eax",
        "fld DWORD PTR [esp+0x8]",
    ];
    let told = with(&text(&string), &path(&[]));
    assert!(remarks(&told)[0].ends_with("writes to [esp0+0x8], which is not lifted"));
    let vector = ["movlps QWORD PTR [esp+0x8],xmm0", "fld DWORD PTR [esp+0x8]"];
    let told = with(&text(&vector), &path(&[]));
    assert!(remarks(&told)[0].ends_with("writes to [esp0+0x8], which is not lifted"));
}

#[test]
fn the_nop_that_moves_the_stack_pointer_to_itself_is_known() {
    for nop in ["lea esp,[esp+eiz*1+0x0]", "lea esp, [esp + eiz]"] {
        assert_eq!(
            on_way(&[nop, "fld DWORD PTR [esp+0x4]"]),
            ["[esp0+0x4]"],
            "{nop}"
        );
    }
}

#[test]
fn calls_of_64_bit_code_lose_more_registers() {
    for (name, kept) in [
        ("r8", false),
        ("rsi", false),
        ("rdi", false),
        ("r12", true),
        ("rbx", true),
    ] {
        let text =
            format!("0 fld QWORD PTR [{name}]\n2 call 900\n4 fld QWORD PTR [{name}]\n6 ret\n");
        let told = places(&with(&text, &path(&[])));
        assert_eq!(told[0] == told[1], kept, "{told:?}");
    }
}
