//! Lists of nodes as SMT-LIB, and the values that a solver prints.
//!
//! Each node is one defined constant. A node that takes a given value is
//! a literal of its sort, so nothing is left to be solved: a solver only
//! works out terms. Bits of width 1 stand for truth.

use plain::sorts::{Format, Sort};
use plain::state::ROW;
use plain::values::{held, nan, takes_given, value};

use crate::patterns::ones;
use crate::sexpr::Sexpr;

/// How `FpToIeeeBv` is said. SMT-LIB has no such function, and leaves
/// open which pattern a NaN has; here every NaN is held as one (the
/// manual, section 6), and both ways say so themselves.
#[derive(Debug, Clone, Copy)]
pub enum Pattern<'a> {
    /// By `fp.to_ieee_bv`, which z3 has.
    Function,
    /// By the standard's `to_fp` alone: the node is the value in this
    /// column, and a truth beside it says that it is a pattern of the
    /// float. There is one such pattern, as no two give one float that is
    /// not NaN.
    Column(&'a [u64]),
}

/// One list with the values that are given to it.
#[derive(Debug, Clone, Copy)]
pub struct Formula<'a> {
    pub nodes: &'a [u64],
    pub sorts: &'a [Sort],
    pub given: &'a [u64],
}

impl Formula<'_> {
    /// Commands that make a solver print one term: a function of all the
    /// nodes' values, and of all truths.
    #[must_use]
    pub fn commands(self, pattern: Pattern<'_>) -> String {
        let mut text = String::from("(push 1)\n");
        let mut sorts = Vec::new();
        let mut terms = Vec::new();
        for (node, &sort) in self.sorts.iter().enumerate() {
            let (sort, term) = (sort_text(sort), self.term(node, pattern));
            text += &format!("(define-fun n{node} () {sort} {term})\n");
            sorts.push(sort);
            terms.push(format!("n{node}"));
        }
        for truth in self.truths(pattern) {
            sorts.push("Bool".into());
            terms.push(truth);
        }
        let (sorts, terms) = (sorts.join(" "), terms.join(" "));
        text + &format!("(declare-fun all ({sorts}) Bool)\n(simplify (all {terms}))\n(pop 1)\n")
    }

    fn row(self, node: usize) -> [u64; ROW] {
        let row = &self.nodes[node * ROW..(node + 1) * ROW];
        row.try_into().expect("four words")
    }

    /// The format of an operand.
    fn format(self, operand: u64) -> Format {
        match self.sorts[usize::try_from(operand).expect("an earlier node")] {
            Sort::Float(format) => format,
            Sort::Bits(width) => panic!("{operand} is of {width} bits"),
        }
    }

    fn term(self, node: usize, pattern: Pattern<'_>) -> String {
        let [kind, a, b, c] = self.row(node);
        let sort = self.sorts[node];
        if takes_given(kind) {
            return literal(sort, value(self.given, node));
        }
        match kind {
            6 => literal(sort, u128::from(b) << 64 | u128::from(a)),
            7 => format!("(bvand n{a} n{b})"),
            8 => format!("(bvxor n{a} n{b})"),
            9 => bit(&format!("(= n{a} n{b})")),
            10 => bit(&format!("(and {} {})", truth(a), truth(b))),
            11 => bit(&format!("(or {} {})", truth(a), truth(b))),
            12 => bit(&format!("(not {})", truth(a))),
            13 => format!("(ite {} n{b} n{c})", truth(a)),
            14 => format!("((_ extract {b} {c}) n{a})"),
            15 => format!("(concat n{a} n{b})"),
            20 => bit(&format!("(fp.eq n{a} n{b})")),
            21 => bit(&format!("(fp.lt n{a} n{b})")),
            22 => bit(&format!("(fp.isNaN n{a})")),
            25 => to_fp(self.format(node as u64), &format!("n{a}")),
            26 => self.pattern(node, a, pattern),
            _ => panic!("node {node} has kind {kind}"),
        }
    }

    fn pattern(self, node: usize, a: u64, pattern: Pattern<'_>) -> String {
        let sort = self.sorts[node];
        match pattern {
            Pattern::Function => {
                let nan = literal(sort, nan(self.format(a)));
                format!("(ite (fp.isNaN n{a}) {nan} (fp.to_ieee_bv n{a}))")
            }
            // A value that is too wide is cut: it will differ.
            Pattern::Column(column) => literal(sort, value(column, node) & ones(sort.width())),
        }
    }

    /// What must be true beside the values.
    fn truths(self, pattern: Pattern<'_>) -> Vec<String> {
        if let Pattern::Function = pattern {
            return Vec::new();
        }
        let rows = (0..self.sorts.len()).map(|node| (node, self.row(node)));
        let patterns = rows.filter(|(_, row)| row[0] == 26);
        patterns
            .map(|(node, row)| self.truth(node, row[1]))
            .collect()
    }

    fn truth(self, node: usize, a: u64) -> String {
        let format = self.format(a);
        let nan = literal(self.sorts[node], nan(format));
        let back = to_fp(format, &format!("n{node}"));
        format!("(ite (fp.isNaN n{a}) (= n{node} {nan}) (= {back} n{a}))")
    }

    /// The values in what a solver printed, and whether each truth is
    /// true.
    ///
    /// # Errors
    /// Says what could not be read.
    pub fn read(self, printed: &Sexpr) -> Result<(Vec<u128>, bool), String> {
        let wrong = || format!("not the values of {} nodes: {printed}", self.sorts.len());
        let (name, rest) = printed
            .list()
            .and_then(<[_]>::split_first)
            .ok_or_else(wrong)?;
        if name.atom() != Some("all") || rest.len() < self.sorts.len() {
            return Err(wrong());
        }
        let (values, truths) = rest.split_at(self.sorts.len());
        let read = |(&sort, text): (&Sort, &Sexpr)| {
            read(sort, text).ok_or_else(|| format!("no value of {sort:?}: {text}"))
        };
        let values = self.sorts.iter().zip(values).map(read);
        let truths = truths.iter().all(|t| t.atom() == Some("true"));
        Ok((values.collect::<Result<_, _>>()?, truths))
    }
}

fn sort_text(sort: Sort) -> String {
    match sort {
        Sort::Bits(width) => format!("(_ BitVec {width})"),
        Sort::Float(Format {
            exponent,
            significand,
        }) => format!("(_ FloatingPoint {exponent} {significand})"),
    }
}

/// A value of a sort; a float's is its pattern.
#[must_use]
pub fn literal(sort: Sort, value: u128) -> String {
    let width = usize::try_from(sort.width()).expect("at most 80");
    let digits = format!("{value:0width$b}");
    match sort {
        Sort::Bits(_) => format!("#b{digits}"),
        Sort::Float(format) => {
            let (sign, rest) = digits.split_at(1);
            let (exponent, fraction) = rest.split_at(format.exponent as usize);
            format!("(fp #b{sign} #b{exponent} #b{fraction})")
        }
    }
}

fn truth(node: u64) -> String {
    format!("(= n{node} #b1)")
}

fn bit(truth: &str) -> String {
    format!("(ite {truth} #b1 #b0)")
}

/// The float of a pattern.
#[must_use]
pub fn to_fp(format: Format, bits: &str) -> String {
    let Format {
        exponent,
        significand,
    } = format;
    format!("((_ to_fp {exponent} {significand}) {bits})")
}

/// A printed value, a float as its pattern.
#[must_use]
pub fn read(sort: Sort, text: &Sexpr) -> Option<u128> {
    match sort {
        Sort::Bits(width) => bits(text, width),
        Sort::Float(format) => float(text, format),
    }
}

/// Digits of exactly that width.
fn bits(text: &Sexpr, width: u64) -> Option<u128> {
    let text = text.atom()?;
    let (digits, each, base) = match text.strip_prefix("#b") {
        Some(digits) => (digits, 1, 2),
        None => (text.strip_prefix("#x")?, 4, 16),
    };
    let value = u128::from_str_radix(digits, base).ok()?;
    (digits.len() as u64 * each == width).then_some(value)
}

/// A float by its three parts, or by its name.
fn float(text: &Sexpr, format: Format) -> Option<u128> {
    let (e, s) = (format.exponent, format.significand);
    let fraction = s - 1;
    let infinity = ((1 << e) - 1) << fraction;
    let sign = 1 << (e + fraction);
    let parts = text.list()?;
    let [first, x, y, z] = parts else {
        return None;
    };
    if first.atom()? == "fp" {
        let exponent = bits(y, e.into())?;
        let top = bits(x, 1)? << e | exponent;
        return Some(held(format, top << fraction | bits(z, fraction.into())?));
    }
    if first.atom()? != "_" || y.atom()? != e.to_string() || z.atom()? != s.to_string() {
        return None;
    }
    match x.atom()? {
        "NaN" => Some(nan(format)),
        "+oo" => Some(infinity),
        "-oo" => Some(sign | infinity),
        "+zero" => Some(0),
        "-zero" => Some(sign),
        _ => None,
    }
}

#[cfg(test)]
mod tests {
    use super::{literal, read};
    use crate::sexpr;
    use plain::sorts::{Format, Sort};

    #[test]
    fn a_literal_is_read_back() {
        for sort in [Sort::Bits(1), Sort::Bits(80), Sort::Float(Format::EXTENDED)] {
            for value in [0, 1, (1 << sort.width()) - 1, 1 << (sort.width() - 1)] {
                let printed = sexpr::all(&literal(sort, value)).expect("one term");
                let held = match sort {
                    Sort::Bits(_) => value,
                    Sort::Float(format) => plain::values::held(format, value),
                };
                assert_eq!(read(sort, &printed[0]), Some(held));
            }
        }
    }

    #[test]
    fn names_of_floats_are_read() {
        let float = Sort::Float(Format::SINGLE);
        for (text, value) in [
            ("(_ +oo 8 24)", Some(0x7f80_0000)),
            ("(_ -oo 8 24)", Some(0xff80_0000)),
            ("(_ +zero 8 24)", Some(0)),
            ("(_ -zero 8 24)", Some(0x8000_0000)),
            ("(_ NaN 8 24)", Some(0x7fc0_0000)),
            ("(_ NaN 11 53)", None),
            ("#x7fc00000", None),
        ] {
            let printed = sexpr::all(text).expect("one term");
            assert_eq!(read(float, &printed[0]), value, "{text}");
        }
        let printed = sexpr::all("#x1f").expect("one term");
        assert_eq!(read(Sort::Bits(8), &printed[0]), Some(0x1f));
        assert_eq!(read(Sort::Bits(7), &printed[0]), None);
    }
}
