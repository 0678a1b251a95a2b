//! The 56 names, and names that are nearly one.

/// The names of the table (the manual, section 2), in the order of
/// `classify`.
pub const NAMES: [&str; 56] = [
    "fld1", "fldz", "fabs", "fchs", "fsqrt", "frndint", "fxch", "fld", "fild", "fst", "fstp",
    "fist", "fistp", "fisttp", "fcom", "fcomp", "fucom", "fucomp", "fcompp", "fucompp", "fcomi",
    "fucomi", "fcompi", "fucompi", "fcomip", "fucomip", "fnstsw", "fstsw", "fcmovb", "fcmove",
    "fcmovbe", "fcmovu", "fcmovnb", "fcmovne", "fcmovnbe", "fcmovnu", "fiadd", "fisub", "fisubr",
    "fimul", "fidiv", "fidivr", "ficom", "ficomp", "fadd", "fmul", "fsub", "fsubr", "fdiv",
    "fdivr", "faddp", "fmulp", "fsubp", "fsubrp", "fdivp", "fdivrp",
];

/// Names with another beginning, middle or end. None is modelled.
const WRONG: [&str; 118] = [
    "", "f", "p", "fp", "fl", "ld", "ld1", "add", "sub", "mov", "nop", "sahf", "emms", "fld2",
    "fldp", "fldpi", "fldl2e", "fldl2t", "fldlg2", "fldln2", "fldcw", "fldenv", "fld11", "fldzz",
    "fldz1", "fld_", "_fld", "xfld", "wfld", "fld.", "fld\0", "\0fld", "fabsp", "fchsp", "fab",
    "fchss", "fsqrtp", "fsqr", "frndintp", "frndin", "fxchp", "fxch4", "fxc", "filds", "fildp",
    "fil", "fst0", "fstpp", "fstcw", "fnstcw", "fstenv", "fs", "fistt", "fisttpp", "fistpp",
    "fisttp8", "fis", "fcompip", "fcomppp", "fcomppi", "fcomipi", "fcomipp", "fcomii", "fco",
    "fucompip", "fucomppp", "fucomppi", "fucomii", "fuco", "fucomppx", "fnstswp", "fnstsww",
    "fnsts", "fstswax", "fstsw2", "nstsw", "stsw", "fwait", "fninit", "fincstp", "fdecstp",
    "ffree", "fxam", "ftst", "fsin", "fprem", "fbld", "fbstp", "fcmov", "fcmovp", "fcmovnp",
    "fcmova", "fcmovae", "fcmovn", "fcmovbb", "fcmovbp", "fcmovnbp", "fcmovbep", "fcmovuu",
    "fcmovnnu", "fcmoveb", "fcmo", "faddpp", "fmulpp", "fsubpp", "fsubrpp", "fdivpp", "fdivrpp",
    "faddr", "faddrp", "fmulr", "fsubpr", "fiaddp", "fisubrp", "fidivp", "ficompp", "ficomi",
    "fiaddd",
];

/// Names with blanks, odd bytes or capitals: some are one of the 56 after
/// a trim and without case, the others are not.
const SPELT: [&str; 58] = [
    " ",
    "\t",
    " fld",
    "fld ",
    "  fld1  ",
    "\tfabs\n",
    "\x0bfchs\x0c",
    "\rfsqrt\r",
    "\n\nfxch",
    " \t\n\x0b\x0c\rfstp\r\x0c\x0b\n\t ",
    " fcmovnbe ",
    "\tfucompi",
    "fdivrp\t",
    " fnstsw",
    "fstsw ",
    " fiadd\t",
    "f ld",
    "fl d",
    "fcmov b",
    "fcmov ",
    "fadd p",
    "fsubr p",
    "f\tcom",
    "fld\x1f",
    "\x1cfld",
    "\x08fld",
    "fld\x0e",
    "fld\x7f",
    "fadd\0p",
    "FLD",
    "FLD1",
    "fLdZ",
    "FABS",
    "Fchs",
    "fSQRT",
    "FRndInt",
    "FXCH",
    "FILD",
    "FSTP",
    "FisttP",
    "FCOMPP",
    "FUCOMI",
    "FCOMIP",
    "FNSTSW",
    "FCMOVB",
    "fcmovNBE",
    "FCMOVnu",
    "FICOMP",
    "FIDIVR",
    "FSUBRP",
    "FADDPP",
    " FADDP ",
    "\tFDIV\n",
    "FDIVr",
    "fADDp ",
    "FCMOV",
    "Fld 1",
    "f l d",
];

/// Every name of a run: the 56, the wrong ones, the odd spellings, and
/// some of exactly 32 bytes.
#[must_use]
pub fn all() -> Vec<Vec<u8>> {
    let given = NAMES.iter().chain(&WRONG).chain(&SPELT);
    given
        .map(|name| name.as_bytes().to_vec())
        .chain(long())
        .collect()
}

/// Names of exactly 32 bytes: blanks around a name, and letters.
fn long() -> Vec<Vec<u8>> {
    [
        format!("{:<32}", "fld"),
        format!("{:>32}", "faddp"),
        format!("{:^32}", "fcmovnbe"),
        format!("{:\t<32}", "FNSTSW"),
        format!("{:f<32}", "fld"),
        format!("{:p<32}", "fadd"),
        format!("{:b<32}", "fcmov"),
        format!("{:>31}p", "fsub"),
        " ".repeat(32),
        "p".repeat(32),
    ]
    .map(String::into_bytes)
    .to_vec()
}

#[cfg(test)]
mod tests {
    use super::{NAMES, all};
    use std::collections::HashSet;

    #[test]
    fn names_differ_and_fit() {
        let names = all();
        let different: HashSet<_> = names.iter().collect();
        assert_eq!(different.len(), names.len());
        assert!(names.iter().all(|n| n.len() <= 32 && n.is_ascii()));
        assert!(names.len() >= NAMES.len() + 100);
    }

    #[cfg(not(no_oracle))]
    #[test]
    fn wrong_names_are_not_modelled() {
        let lists = crate::operands::all().into_iter().map(|o| vec![o]);
        let lists: Vec<_> = lists.chain([vec![]]).collect();
        for name in super::WRONG {
            for given in &lists {
                let insn = plain::Instruction::new(0, name.as_bytes(), given);
                assert_eq!(crate::oracle::classify(&insn), None, "{insn:?}");
            }
        }
    }
}
