//! The functions that are compiled and run.

/// What an argument is.
#[derive(Debug, Clone, Copy, PartialEq, Eq)]
pub enum Kind {
    Float,
    Double,
    LongDouble,
    Int,
    LongLong,
    /// An integer from 0 to 4.
    Count,
    /// Pointers to memory of 64 bytes that is full of numbers.
    Floats,
    Doubles,
    Ints,
    /// A pointer to 64 bytes that are written.
    Space,
}

/// A function: its name and its arguments.
#[derive(Debug, Clone, Copy)]
pub struct Function {
    pub name: &'static str,
    pub arguments: &'static [Kind],
}

/// Functions of one file, compiled alike.
#[derive(Debug, Clone, Copy)]
pub struct Group {
    pub name: &'static str,
    pub source: &'static str,
    /// What the compiler is told beside [`crate::gcc`]'s own options.
    pub options: &'static [&'static str],
    pub functions: &'static [Function],
}

/// The levels of optimisation.
pub const LEVELS: [&str; 3] = ["-O0", "-O1", "-O2"];

use Kind::{Count, Double, Doubles, Float, Floats, Int, Ints, LongDouble, LongLong, Space};

const fn function(name: &'static str, arguments: &'static [Kind]) -> Function {
    Function { name, arguments }
}

const NUMBERS: &[Function] = &[
    function("to_int", &[Double]),
    function("to_short", &[Float, Float]),
    function("to_long", &[LongDouble]),
    function("sum", &[Doubles, Count]),
    function("mean", &[Ints, Count]),
    function("polynomial", &[Double, Doubles]),
    function("newton", &[Double]),
    function("distance", &[Double, Double]),
    function("circle", &[LongDouble]),
    function("is_negative", &[LongDouble, LongDouble]),
    function("negated", &[Double, Double]),
    function("many", &[Doubles]),
    function("across", &[Double, Double]),
    function("twice_across", &[Double, Double]),
    function("tail", &[Double]),
    function("mixed", &[Float, Double, LongDouble, Int, LongLong]),
    function("scaled", &[Floats, Float, Count]),
    function("stored", &[Double, Space, Space, Space, Space]),
    function("both", &[Space, Double, Double]),
    function("product", &[Space, Floats, Floats]),
];

const COMPARES: &[Function] = &[
    function("smaller", &[Double, Double]),
    function("larger", &[Float, Double]),
    function("clamped", &[Float, Float, Float]),
    function("chosen", &[Count, Double, Double]),
    function("picked", &[Count, Double, Double]),
    function("order", &[Double, Double]),
    function("below", &[Floats, Float]),
    function("sign", &[Double]),
];

const WHOLE: &[Function] = &[
    function("floor_of", &[Double, Double]),
    function("ceil_of", &[Float]),
    function("nearest", &[Double]),
    function("remainder_of", &[Double, Double]),
    function("least", &[Double, Double]),
    function("floor_int", &[Double]),
    function("wave", &[Double, Double]),
];

/// Functions with an instruction that the tools do not model: a call,
/// `fldpi`, `fxam`, `fprem`, `fsin`, or one under a control word that
/// rounds down or up. All others are modelled from end to end.
pub const DECLINED: [&str; 10] = [
    "across",
    "ceil_of",
    "circle",
    "floor_int",
    "floor_of",
    "is_negative",
    "remainder_of",
    "tail",
    "twice_across",
    "wave",
];

/// All groups.
pub const GROUPS: [Group; 4] = [
    Group {
        name: "numbers",
        source: "numbers.c",
        options: &["-march=i686"],
        functions: NUMBERS,
    },
    Group {
        name: "compares",
        source: "compares.c",
        options: &["-march=i686"],
        functions: COMPARES,
    },
    Group {
        name: "compares-i386",
        source: "compares.c",
        options: &["-march=i386"],
        functions: COMPARES,
    },
    Group {
        name: "whole",
        source: "whole.c",
        options: &["-march=i686", "-ffast-math"],
        functions: WHOLE,
    },
];
