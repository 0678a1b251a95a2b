//! The instructions that `x87rec` passes over, in the forms that x87 code
//! is mixed with, and stores of x87 code.

use crate::probed::Function;

/// An instruction, with lines before and behind it that set it up and show
/// what it did.
#[derive(Debug, Clone)]
pub struct Form {
    before: Vec<String>,
    pub text: String,
    behind: Vec<String>,
}

/// Names on the list that only 64-bit code has, and one that objdump
/// writes otherwise.
pub const ABSENT: [&str; 6] = ["cdqe", "cqo", "jrcxz", "movabs", "movsxd", "sal"];

/// Conditions, as objdump writes them.
pub const CONDITIONS: [&str; 16] = [
    "a", "ae", "b", "be", "e", "g", "ge", "l", "le", "ne", "no", "np", "ns", "o", "p", "s",
];

/// Instructions of two operands, of which the first is written or read.
const TWO: [&str; 10] = [
    "adc", "add", "and", "cmp", "mov", "or", "sbb", "sub", "test", "xor",
];

/// Their operands.
const OPERANDS: [&str; 28] = [
    "eax,edx",
    "ecx,ebx",
    "dx,ax",
    "al,dl",
    "ah,dl",
    "dl,ch",
    "ch,dh",
    "eax,eax",
    "al,al",
    "dh,dh",
    "eax,0x12345678",
    "ecx,-8",
    "al,0x3c",
    "ah,0xc",
    "dx,0x3ff",
    "edx,DWORD PTR [ebx]",
    "DWORD PTR [ebx+0x4],ecx",
    "DWORD PTR [esp+0x4],eax",
    "DWORD PTR [esp+0x3],edx",
    "DWORD PTR [esp-0x6],ebx",
    "WORD PTR [esp+0x6],ax",
    "WORD PTR [esp+0x5],dx",
    "BYTE PTR [esp+0x5],ah",
    "BYTE PTR [esp+0x4],cl",
    "DWORD PTR [esp+0x8],0xfffff3ff",
    "WORD PTR [esp+0x8],0xc00",
    "BYTE PTR [esp+0x9],0xc",
    "BYTE PTR [esp+0x8],0x40",
];

/// Operands by which a stored control word, or an address on the stack, is
/// changed in `eax`.
const CHANGES: [&str; 12] = [
    "eax,0xc00",
    "eax,0xfffff3ff",
    "eax,8",
    "ax,0xc00",
    "ax,0xfff8",
    "ah,0xc",
    "ah,1",
    "al,0x10",
    "al,0xf8",
    "al,ah",
    "ax,dx",
    "eax,eax",
];

/// Where a control word or an address on the stack comes into `eax`.
const SOURCES: [&[&str]; 4] = [
    &["mov ax,WORD PTR [esp+0x4]"],
    &["movzx eax,WORD PTR [esp+0x4]"],
    &["mov eax,esp"],
    &["lea eax,[esp+0xfc]"],
];

/// Instructions of one operand that is written.
const ONE: [&str; 4] = ["dec", "inc", "neg", "not"];

const SHIFTS: [&str; 7] = ["rcl", "rcr", "rol", "ror", "sar", "shl", "shr"];

/// Instructions without operands.
const ALONE: [&str; 15] = [
    "cbw", "cdq", "clc", "cld", "cmc", "cwd", "cwde", "endbr32", "endbr64", "lahf", "nop", "sahf",
    "std", "stc", "leave",
];

/// Lines of other shapes.
const LINES: &[&str] = &[
    "bsf eax,edx",
    "bsr dx,cx",
    "bsf eax,DWORD PTR [ebx]",
    "bsr eax,DWORD PTR [ebx]",
    "lzcnt eax,edx",
    "tzcnt cx,dx",
    "popcnt eax,DWORD PTR [esp+0x4]",
    "bswap ecx",
    "nop DWORD PTR [eax+eax*1+0x0]",
    "bt eax,ecx",
    "bt DWORD PTR [esp+0x4],9",
    "bts ax,cx",
    "bts WORD PTR [esp+0x4],0xa",
    "btr DWORD PTR [esp+0x3],0x1f",
    "btc eax,5",
    "btc DWORD PTR [ebx],0x11",
    "imul dl",
    "imul cx",
    "imul ecx",
    "imul DWORD PTR [ebx]",
    "imul BYTE PTR [esp+0x4]",
    "imul eax,edx",
    "imul dx,ax",
    "imul ecx,DWORD PTR [esp+0x4]",
    "imul eax,edx,7",
    "imul dx,cx,300",
    "imul ecx,DWORD PTR [ebx],-5",
    "mul ecx",
    "mul cx",
    "mul ah",
    "mul DWORD PTR [ebx]",
    "xchg eax,edx",
    "xchg ecx,ecx",
    "xchg ax,dx",
    "xchg al,ah",
    "xchg ah,ah",
    "xchg ebp,eax",
    "xchg esp,eax",
    "xchg WORD PTR [ebx],cx",
    "xchg DWORD PTR [esp+0x6],eax",
    "xchg BYTE PTR [esp+0x5],ah",
    "xchg DWORD PTR [ebx],ebx",
    "xadd eax,edx",
    "xadd eax,eax",
    "xadd dx,dx",
    "xadd al,ah",
    "xadd cl,cl",
    "xadd DWORD PTR [ebx],ebx",
    "xadd DWORD PTR [esp+0x6],ecx",
    "cmpxchg edx,ecx",
    "cmpxchg DWORD PTR [esp+0x6],ecx",
    "cmpxchg BYTE PTR [ebx],dl",
    "cmpxchg al,dl",
    "push eax",
    "push esp",
    "push ebp",
    "push ax",
    "push sp",
    "push ds",
    "push 5",
    "push 0x12345678",
    "push DWORD PTR [ebx]",
    "push WORD PTR [ebx]",
    "push DWORD PTR [esp+0x4]",
    "push WORD PTR [esp-0x2]",
    "pop eax",
    "pop ebp",
    "pop esp",
    "pop cx",
    "pop sp",
    "pop DWORD PTR [ebx]",
    "pop WORD PTR [ebx]",
    "pop DWORD PTR [esp]",
    "pop DWORD PTR [esp+0x4]",
    "pop DWORD PTR [esp-0x8]",
    "pop WORD PTR [esp+0x4]",
    "lea eax,[esp+0x8]",
    "lea eax,[ebx+ecx*4+0x3]",
    "lea esp,[esp+0x8]",
    "lea esp,[ebp-0x8]",
    "lea ebp,[esp+0x4]",
    "lea ax,[esp+0x8]",
    "lea ecx,[ecx+ecx*1]",
    "lea eax,[esp+eax*2]",
    ".byte 0x8d,0x74,0x26,0",
    "mov esp,ebp",
    "mov ebp,esp",
    "mov eax,esp",
    "mov ax,sp",
    "mov DWORD PTR [esp+0x8],esp",
    "mov esp,DWORD PTR [ebx]",
    "mov eax,ds",
    "mov eax,ds:back",
    "add esp,0x8",
    "sub esp,0x10",
    "sub esp,-0x80",
    "sub esp,ecx",
    "add esp,DWORD PTR [ebx]",
    "and esp,-16",
    "or esp,4",
    "xor esp,8",
    "add sp,0x8",
    "inc esp",
    "neg esp",
    "cmove esp,eax",
    "movzx eax,dl",
    "movzx ecx,ah",
    "movzx dx,al",
    "movzx ebx,bp",
    "movzx ebx,sp",
    "movzx esp,ax",
    "movsx eax,dx",
    "movsx ax,dl",
    "movsx eax,BYTE PTR [ebx]",
    "movsx esp,sp",
    "shld eax,edx,cl",
    "shld DWORD PTR [esp+0x4],eax,cl",
    "shrd ax,dx,4",
    "shrd eax,edx,0",
    "shrd DWORD PTR [esp+0x4],eax,3",
    "loop 9f",
    "loope 9f",
    "loopne 9f",
    "jecxz 9f",
    "jcxz 9f",
];

/// Vector instructions of two registers or a register and memory, and how
/// much memory they take.
const VECTORS: [(&str, &str); 24] = [
    ("addps", "XMMWORD"),
    ("addsd", "QWORD"),
    ("addss", "DWORD"),
    ("andnps", "XMMWORD"),
    ("andpd", "XMMWORD"),
    ("andps", "XMMWORD"),
    ("comisd", "QWORD"),
    ("comiss", "DWORD"),
    ("cvtsd2ss", "QWORD"),
    ("cvtss2sd", "DWORD"),
    ("divsd", "QWORD"),
    ("divss", "DWORD"),
    ("mulsd", "QWORD"),
    ("mulss", "DWORD"),
    ("orps", "XMMWORD"),
    ("pxor", "XMMWORD"),
    ("sqrtsd", "QWORD"),
    ("subsd", "QWORD"),
    ("subss", "DWORD"),
    ("ucomisd", "QWORD"),
    ("ucomiss", "DWORD"),
    ("xorpd", "XMMWORD"),
    ("xorps", "XMMWORD"),
    ("movq", "QWORD"),
];

/// Moves between vectors and memory, and an offset from the stack pointer
/// that they may have.
const MOVES: [(&str, &str, &str); 9] = [
    ("movapd", "XMMWORD", "+0x4"),
    ("movaps", "XMMWORD", "+0x4"),
    ("movdqa", "XMMWORD", "-0xc"),
    ("movdqu", "XMMWORD", "+0x3"),
    ("movupd", "XMMWORD", "-0x5"),
    ("movups", "XMMWORD", "+0x6"),
    ("movsd", "QWORD", "+0x5"),
    ("movss", "DWORD", "+0x3"),
    ("movq", "QWORD", "+0x6"),
];

/// Vector instructions with a general register.
const CROSSINGS: [&str; 10] = [
    "cvtsi2sd xmm0,edx",
    "cvtsi2sd xmm0,DWORD PTR [ebx]",
    "cvtsi2ss xmm0,ecx",
    "cvttsd2si eax,xmm0",
    "cvttsd2si eax,QWORD PTR [ebx]",
    "cvttss2si edx,xmm1",
    "movd eax,xmm1",
    "movd xmm0,eax",
    "movd DWORD PTR [esp+0x6],xmm1",
    "movd xmm1,DWORD PTR [esp+0x4]",
];

/// String instructions; each begins with one of these prefixes.
const STRINGS: [&str; 5] = ["cmps", "lods", "movs", "scas", "stos"];
const REPEATS: [&str; 3] = ["", "rep ", "repnz "];

/// What points the destination elsewhere, or turns the direction.
const TARGETS: [&[&str]; 5] = [
    &[],
    &["std"],
    &["lea edi,[esp+0x6]"],
    &["mov edi,esp", "std"],
    &["lea ebp,[esp+0x3]", "xchg edi,ebp"],
];

/// x87 code that stores.
const STORES: [&str; 15] = [
    "fst DWORD PTR [esp+0x6]",
    "fstp QWORD PTR [esp+0x5]",
    "fstp TBYTE PTR [esp-0x3]",
    "fist WORD PTR [esp+0x5]",
    "fistp DWORD PTR [esp-0x6]",
    "fisttp QWORD PTR [esp+0x3]",
    "fbstp TBYTE PTR [esp+0x3]",
    "fnstsw WORD PTR [esp+0x5]",
    "fnstsw ax",
    "fnstcw WORD PTR [esp+0x5]",
    "fnstenv [esp-0x8]",
    "fnsave [esp-0x60]",
    "fxsave [esp-0x17c]",
    "fst DWORD PTR [ebx]",
    "fcomi st,st(1)",
];

/// Divisions, and what keeps them from a fault.
const DIVISIONS: [(&[&str], &str); 8] = [
    (&["xor edx,edx", "or ecx,1"], "div ecx"),
    (&["xor edx,edx", "or ecx,1"], "div cx"),
    (&["movzx eax,al", "or ecx,1"], "div cl"),
    (
        &["xor edx,edx", "or DWORD PTR [ebx],1"],
        "div DWORD PTR [ebx]",
    ),
    (
        &["and eax,0x7fffffff", "xor edx,edx", "or ecx,1"],
        "idiv ecx",
    ),
    (&["and eax,0x7fff", "xor edx,edx", "or ecx,1"], "idiv cx"),
    (&["and eax,0x7f", "or ecx,1"], "idiv cl"),
    (&["and eax,0x7f", "or ecx,0x100"], "idiv ch"),
];

/// Forms that need lines before or behind them.
const SET_UP: &[(&[&str], &str, &[&str])] = &[
    (&["and ecx,3"], "mov DWORD PTR [ebx+ecx*4],eax", &[]),
    (&["and ecx,3"], "mov DWORD PTR [esp+ecx*4],eax", &[]),
    (&["and ecx,3"], "add BYTE PTR [esp+ecx*1-0x2],dl", &[]),
    (&["and eax,0xff"], "bts DWORD PTR [esp],eax", &[]),
    (&["movsx eax,al"], "btr DWORD PTR [esp+0x4],eax", &[]),
    (&["and edx,0x7f"], "btc WORD PTR [esp+0x4],dx", &[]),
    (&["and edx,0x7f"], "bt DWORD PTR [esp+0x4],edx", &[]),
    (&["mov eax,edx"], "cmpxchg edx,ecx", &[]),
    (
        &["mov eax,DWORD PTR [esp+0x6]"],
        "cmpxchg DWORD PTR [esp+0x6],ecx",
        &[],
    ),
    (&["mov ebp,esp"], "leave", &[]),
    (&["lea ebp,[esp+0x8]"], "leave", &[]),
    (&["push ebp", "mov ebp,esp", "sub esp,0x10"], "leave", &[]),
    (&["lea ebp,[esp+0x8]", "push ebp"], "pop esp", &[]),
    (&["push eax"], "pop DWORD PTR [esp]", &[]),
    (&["push eax"], "pop DWORD PTR [esp+0x4]", &[]),
    (&["push eax"], "pop WORD PTR [esp+0x6]", &[]),
    (&["and ecx,3", "push eax"], "pop DWORD PTR [esp+ecx*4]", &[]),
    (
        &["lea ebp,[esp+0x8]", "push ebp"],
        "movzx eax,BYTE PTR [esp]",
        &[],
    ),
    (
        &["lea ebp,[esp+0x8]", "push ebp"],
        "movzx eax,WORD PTR [esp]",
        &[],
    ),
    (
        &["lea ebp,[esp+0x8]", "push ebp"],
        "add WORD PTR [esp],4",
        &["pop eax"],
    ),
    (
        &["lea ebp,[esp+0x8]", "push bp"],
        "movzx eax,WORD PTR [esp]",
        &[],
    ),
    (&["lea ebp,[esp+0x8]"], "push bp", &["pop eax"]),
    (&["push esp"], "add DWORD PTR [esp],8", &["pop eax"]),
    (&["push esp"], "add BYTE PTR [esp],8", &["pop eax"]),
    (&["lea ebp,[esp+0x8]"], "mov WORD PTR [ebp],ax", &[]),
    (
        &["lea ebp,[esp+0x8]"],
        "push ebp",
        &["mov DWORD PTR [ebx],eax"],
    ),
    (
        &[],
        "movzx eax,BYTE PTR [esp+0x4]",
        &["mov WORD PTR [esp+0x10],ax"],
    ),
    (
        &[],
        "movzx ax,BYTE PTR [esp+0x4]",
        &["mov WORD PTR [esp+0x10],ax"],
    ),
    (
        &[],
        "movsx eax,WORD PTR [esp+0x4]",
        &["mov WORD PTR [esp+0x10],ax"],
    ),
    (
        &[],
        "mov al,BYTE PTR [esp+0x4]",
        &["mov WORD PTR [esp+0x10],ax"],
    ),
    (
        &[],
        "mov ah,BYTE PTR [esp+0x5]",
        &["mov WORD PTR [esp+0x10],ax"],
    ),
    (
        &[],
        "mov eax,DWORD PTR [esp+0x4]",
        &["mov WORD PTR [esp+0x10],ax"],
    ),
    (
        &[],
        "mov eax,DWORD PTR [esp+0x2]",
        &["mov DWORD PTR [esp+0xe],eax"],
    ),
    (
        &["mov WORD PTR [esp+0x4],0xc7f"],
        "movzx eax,BYTE PTR [esp+0x4]",
        &["mov [esp+0x8],ax"],
    ),
    (
        &["mov WORD PTR [esp+0x4],0xc7f"],
        "mov ah,BYTE PTR [esp+0x4]",
        &["mov [esp+0x8],ax"],
    ),
    (
        &["mov WORD PTR [esp+0x4],0xc7f"],
        "mov al,BYTE PTR [esp+0x4]",
        &["mov [esp+0x8],ax"],
    ),
    (
        &["mov WORD PTR [esp+0x4],0xc7f"],
        "push WORD PTR [esp+0x4]",
        &[],
    ),
    (
        &["mov WORD PTR [esp+0x4],0xc7f"],
        "pop DWORD PTR [esp+0x8]",
        &[],
    ),
    (
        &["or BYTE PTR [esp+0x21],0xc"],
        "or BYTE PTR [esp+0x22],0xc",
        &[],
    ),
    (&["mov eax,0x27f"], "mov DWORD PTR [esp+0x4],eax", &[]),
    (&["mov eax,0x27f"], "push eax", &[]),
    (&["mov eax,0x27f"], "push ax", &[]),
    (
        &["add eax,esp", "sub eax,edx"],
        "mov DWORD PTR [ebx],eax",
        &[],
    ),
];

impl Form {
    fn new(text: impl Into<String>) -> Self {
        Self {
            before: Vec::new(),
            text: text.into(),
            behind: Vec::new(),
        }
    }

    fn after(mut self, before: &[&str]) -> Self {
        self.before
            .extend(before.iter().map(|&line| line.to_owned()));
        self
    }

    fn before(mut self, behind: &[&str]) -> Self {
        self.behind
            .extend(behind.iter().map(|&line| line.to_owned()));
        self
    }

    /// The function that tries it, and the number of its instruction there.
    #[must_use]
    pub fn function(&self, name: String) -> (Function, usize) {
        let mut function = Function::entered(name);
        for line in &self.before {
            function.line(line);
        }
        function.probe();
        let place = function.instructions();
        function.line(&self.text);
        for line in &self.behind {
            function.line(line);
        }
        function.end();
        (function, place)
    }
}

/// All forms.
#[must_use]
pub fn forms() -> Vec<Form> {
    let mut forms: Vec<Form> = LINES.iter().map(|&line| Form::new(line)).collect();
    forms.extend(ALONE.map(Form::new));
    forms.extend(pairs(&TWO, &OPERANDS));
    forms.extend(changes());
    forms.extend(singles());
    forms.extend(conditions());
    forms.extend(strings());
    forms.extend(vectors());
    forms.extend(STORES.map(Form::new));
    forms.extend(DIVISIONS.map(|(before, text)| Form::new(text).after(before)));
    let set_up = SET_UP.iter();
    forms
        .extend(set_up.map(|(before, text, behind)| Form::new(*text).after(before).before(behind)));
    forms
}

/// Each name with each operand.
fn pairs(names: &[&str], operands: &[&str]) -> Vec<Form> {
    let all = names.iter().flat_map(|name| {
        let texts = operands
            .iter()
            .map(move |operand| format!("{name} {operand}"));
        texts.map(Form::new)
    });
    all.collect()
}

/// Changes of a control word or of an address on the stack in `eax`, which
/// is then stored.
fn changes() -> Vec<Form> {
    let each = |before: &&[&str]| {
        let before = before.to_vec();
        let forms = pairs(&TWO, &CHANGES).into_iter();
        forms
            .map(move |form| form.after(&before).before(&["mov WORD PTR [esp+0x10],ax"]))
            .collect::<Vec<_>>()
    };
    SOURCES.iter().flat_map(each).collect()
}

/// Instructions of one operand, and shifts.
fn singles() -> Vec<Form> {
    let operands = [
        "eax",
        "cx",
        "al",
        "dh",
        "DWORD PTR [esp+0x4]",
        "WORD PTR [esp+0x5]",
        "BYTE PTR [esp+0x5]",
        "DWORD PTR [ebx]",
    ];
    let counted = [
        "eax,1",
        "eax,cl",
        "eax,0",
        "dx,cl",
        "ah,cl",
        "al,3",
        "ecx,cl",
        "DWORD PTR [esp+0x5],cl",
        "WORD PTR [ebx],3",
        "BYTE PTR [esp+0x5],1",
    ];
    let mut forms = pairs(&ONE, &operands);
    forms.extend(pairs(&SHIFTS, &counted));
    forms
}

/// Jumps, `set` and `cmov` of each condition.
fn conditions() -> Vec<Form> {
    let each = |condition: &str| {
        [
            format!("j{condition} 9f"),
            format!("set{condition} al"),
            format!("set{condition} dh"),
            format!("set{condition} BYTE PTR [esp+0x5]"),
            format!("cmov{condition} eax,edx"),
            format!("cmov{condition} cx,dx"),
            format!("cmov{condition} eax,DWORD PTR [ebx]"),
        ]
    };
    CONDITIONS
        .iter()
        .flat_map(|c| each(c).map(Form::new))
        .collect()
}

/// String instructions of each size, with each prefix and target.
fn strings() -> Vec<Form> {
    let names = STRINGS
        .iter()
        .flat_map(|name| ["b", "w", "d"].map(|size| format!("{name}{size}")));
    let texts = names.flat_map(|name| REPEATS.map(|repeat| format!("{repeat}{name}")));
    let forms = texts.map(|text| Form::new(text).after(&["and ecx,3"]));
    let each = forms.flat_map(|form| TARGETS.map(|target| form.clone().after(target)));
    each.collect()
}

/// Vector instructions, on registers that hold numbers.
fn vectors() -> Vec<Form> {
    let loads = [
        "movups xmm0,XMMWORD PTR [ebx]",
        "movups xmm1,XMMWORD PTR [esi]",
    ];
    let computed = VECTORS.iter().flat_map(|(name, size)| {
        [
            format!("{name} xmm0,xmm1"),
            format!("{name} xmm0,{size} PTR [ebx]"),
        ]
    });
    let moved = MOVES.iter().flat_map(|(name, size, place)| {
        [
            format!("{name} xmm0,{size} PTR [esi]"),
            format!("{name} {size} PTR [ebx],xmm1"),
            format!("{name} {size} PTR [esp{place}],xmm1"),
        ]
    });
    let crossed = CROSSINGS.iter().map(|&text| text.to_owned());
    let forms = crossed.chain(computed).chain(moved).map(Form::new);
    forms.map(|form| form.after(&loads)).collect()
}
