//! The terms of a list of nodes.

use std::collections::HashMap;

use sleetgate::{Flag, Format, Node, Rounding};

use crate::number;
use crate::terms::{Id, Operator, Term, Terms};

/// The sign of a 79-bit pattern, and all other bits.
const SIGN: u128 = 1 << 78;
const MAGNITUDE: u128 = SIGN - 1;

/// A flag, or `fsw`, that is read: the node, what is read, and what its
/// value is called.
pub struct Read {
    pub node: u64,
    pub of: &'static str,
    pub name: String,
}

/// The term of each node. A node of 79 bits, and any `FpToIeeeBv`, is the
/// pattern of a float and has that float's term.
pub struct Built {
    pub terms: Terms,
    pub of: Vec<Id>,
    pub reads: Vec<Read>,
    /// The node with which each term was first made.
    pub made: Vec<usize>,
    /// The number of the input that a term is.
    pub inputs: HashMap<Id, u64>,
}

/// The terms of these nodes, whose operands are earlier nodes.
pub fn build(nodes: &[Node]) -> Built {
    let mut builder = Builder {
        nodes,
        built: Built {
            terms: Terms::default(),
            of: Vec::new(),
            reads: Vec::new(),
            made: Vec::new(),
            inputs: HashMap::new(),
        },
        formats: Vec::new(),
        loads: HashMap::new(),
    };
    for (number, &node) in nodes.iter().enumerate() {
        let format = builder.format(node);
        builder.formats.push(format);
        let id = builder.term(number, node);
        builder.built.of.push(id);
        builder.built.made.resize(builder.built.terms.len(), number);
    }
    builder.built
}

struct Builder<'a> {
    nodes: &'a [Node],
    built: Built,
    /// For each node the format of the float that it is, or whose pattern
    /// it is.
    formats: Vec<Option<Format>>,
    /// How often each slot was loaded, and each flag read.
    loads: HashMap<String, u32>,
}

impl Builder<'_> {
    fn node(&self, number: u64) -> Node {
        self.nodes[index(number)]
    }

    fn id(&self, number: u64) -> Id {
        self.built.of[index(number)]
    }

    /// The format of the float that a node is or stands for.
    fn format(&self, node: Node) -> Option<Format> {
        let of = |number: u64| self.formats[index(number)];
        match node {
            Node::Input { bits: 79, .. } | Node::Constant { bits: 79, .. } => {
                Some(Format::Extended)
            }
            Node::And(a, b) | Node::Xor(a, b) => of(a).and(of(b)),
            Node::Ite {
                then, otherwise, ..
            } if self.image_read(node).is_none() => of(then).and(of(otherwise)),
            Node::Ite { .. } => Some(Format::Extended),
            Node::FAdd(a, ..)
            | Node::FSub(a, ..)
            | Node::FMul(a, ..)
            | Node::FDiv(a, ..)
            | Node::FSqrt(a, _)
            | Node::FRoundToIntegral(a, _)
            | Node::FpToIeeeBv(a) => of(a),
            Node::BvToFp(_, format) | Node::SbvToFp(.., format) | Node::FpToFp(.., format) => {
                Some(format)
            }
            _ => None,
        }
    }

    fn term(&mut self, number: usize, node: Node) -> Id {
        match node {
            Node::Input { number, .. } => {
                let id = self.built.terms.leaf(format!("in{number}"));
                self.built.inputs.insert(id, number);
                id
            }
            Node::Temporary { number, .. } => self.built.terms.leaf(format!("m{number}")),
            Node::Slot { number, .. } => {
                let name = self.again(format!("s{number}"));
                self.built.terms.leaf(name)
            }
            Node::Status => self.read(number as u64, "fsw"),
            Node::Flag(flag) => self.read(number as u64, flag_name(flag)),
            Node::Constant { value, bits: 79 } => self.number(value, Format::Extended),
            Node::Constant { value, .. } => self.built.terms.leaf(value.to_string()),
            Node::And(a, b) => self.and(a, b),
            Node::Xor(a, b) => self.xor(a, b),
            Node::Eq(a, b) => self.equal(a, b),
            Node::BoolAnd(a, b) => self.infix(Operator::And, a, b),
            Node::BoolOr(a, b) => self.infix(Operator::Or, a, b),
            Node::BoolNot(a) => self.before('!', self.id(a)),
            Node::Ite { .. } => self.choice(node),
            Node::Extract { source, hi, lo } => {
                let source = self.bits(source);
                self.built.terms.put(Term::Slice(source, hi, lo))
            }
            Node::Concat { .. } => self.concat(node),
            node => self.of_floats(node),
        }
    }

    /// The term of a node that has a float operand or is a float.
    fn of_floats(&mut self, node: Node) -> Id {
        match node {
            Node::FAdd(a, b, r) => self.arith(Operator::Add, a, b, r),
            Node::FSub(a, b, r) => self.arith(Operator::Sub, a, b, r),
            Node::FMul(a, b, r) => self.arith(Operator::Mul, a, b, r),
            Node::FDiv(a, b, r) => self.arith(Operator::Div, a, b, r),
            Node::FEq(a, b) => self.infix(Operator::Equal, a, b),
            Node::FLt(a, b) => self.infix(Operator::Less, a, b),
            Node::FIsNaN(a) => self.call("isnan", a),
            Node::FSqrt(a, r) => {
                let root = self.call("sqrt", a);
                self.rounded(root, r)
            }
            Node::FRoundToIntegral(a, Rounding::NearestEven) => self.call("round", a),
            Node::FRoundToIntegral(a, Rounding::TowardZero) => self.call("trunc", a),
            Node::BvToFp(a, format) => self.float(a, format),
            Node::FpToIeeeBv(a) => self.id(a),
            Node::FpToSbv(a, r, bits) => {
                let inner = match r {
                    Rounding::NearestEven => self.id(a),
                    Rounding::TowardZero => self.call("trunc", a),
                };
                self.built.terms.call(format!("i{bits}"), &[inner])
            }
            // An integer of at most 64 bits is exactly a number of the
            // stack's format.
            Node::SbvToFp(a, ..) => {
                let bits = self.bits(a);
                self.built.terms.call("int", &[bits])
            }
            Node::FpToFp(a, r, format) => self.narrowed(a, r, format),
            node => unreachable!("{node:?} is of bits alone"),
        }
    }

    /// A name, numbered from the second time on.
    fn again(&mut self, name: String) -> String {
        let times = self.loads.entry(name.clone()).or_default();
        *times += 1;
        match *times {
            1 => name,
            times => format!("{name}_{times}"),
        }
    }

    /// A flag, or the status word, as it is at this node.
    fn read(&mut self, node: u64, of: &'static str) -> Id {
        let times = self.loads.entry(of.to_owned()).or_default();
        *times += 1;
        let name = format!("{of}{times}");
        let id = self.built.terms.leaf(name.clone());
        self.built.reads.push(Read { node, of, name });
        id
    }

    fn number(&mut self, pattern: u128, format: Format) -> Id {
        self.built.terms.leaf(number::text(pattern, format))
    }

    /// `fabs`, or any other And.
    fn and(&mut self, a: u64, b: u64) -> Id {
        if self.is_constant(b, MAGNITUDE, 79) {
            return self.call("abs", a);
        }
        let (a, b) = (self.bits(a), self.bits(b));
        self.built.terms.call("and", &[a, b])
    }

    /// `fchs`, or any other Xor.
    fn xor(&mut self, a: u64, b: u64) -> Id {
        if self.is_constant(b, SIGN, 79) {
            return self.before('-', self.id(a));
        }
        let (a, b) = (self.bits(a), self.bits(b));
        self.built.terms.call("xor", &[a, b])
    }

    /// A flag that is set or clear, or any other Eq.
    fn equal(&mut self, a: u64, b: u64) -> Id {
        if let Node::Flag(_) = self.node(a) {
            if self.is_constant(b, 1, 1) {
                return self.id(a);
            }
            if self.is_constant(b, 0, 1) {
                return self.before('!', self.id(a));
            }
        }
        let (a, b) = (self.bits(a), self.bits(b));
        self.built.terms.put(Term::Infix(Operator::Equal, a, b))
    }

    fn choice(&mut self, node: Node) -> Id {
        let Node::Ite {
            condition,
            then,
            otherwise,
        } = node
        else {
            unreachable!("only for Ite")
        };
        if let Some(image) = self.image_read(node) {
            let parts = [self.id(image), self.id(otherwise)];
            return self.built.terms.call("number", &parts);
        }
        let term = Term::Choice(self.id(condition), self.id(then), self.id(otherwise));
        self.built.terms.put(term)
    }

    fn concat(&mut self, node: Node) -> Id {
        if let Some(pattern) = self.image_written(node) {
            return self.call("f80", pattern);
        }
        if let Some([c0, c2, c3, rest]) = self.status(node) {
            let parts = [c0, c2, c3, rest].map(|part| self.id(part));
            return self.built.terms.call("status", &parts);
        }
        let Node::Concat { high, low } = node else {
            unreachable!("only for Concat")
        };
        let parts = [self.bits(high), self.bits(low)];
        self.built.terms.call("concat", &parts)
    }

    fn call(&mut self, name: &str, part: u64) -> Id {
        let part = self.id(part);
        self.built.terms.call(name, &[part])
    }

    fn before(&mut self, sign: char, part: Id) -> Id {
        self.built.terms.put(Term::Before(sign, part))
    }

    fn infix(&mut self, operator: Operator, a: u64, b: u64) -> Id {
        let term = Term::Infix(operator, self.id(a), self.id(b));
        self.built.terms.put(term)
    }

    fn arith(&mut self, operator: Operator, a: u64, b: u64, rounding: Rounding) -> Id {
        let exact = self.infix(operator, a, b);
        self.rounded(exact, rounding)
    }

    /// Nearest even goes without saying.
    fn rounded(&mut self, id: Id, rounding: Rounding) -> Id {
        match rounding {
            Rounding::NearestEven => id,
            Rounding::TowardZero => self.built.terms.call("toward_zero", &[id]),
        }
    }

    /// The float of a pattern.
    fn float(&mut self, pattern: u64, format: Format) -> Id {
        match self.node(pattern) {
            Node::Constant { value, .. } => self.number(value, format),
            Node::Temporary { .. } | Node::Slot { .. } => self.id(pattern),
            _ if self.formats[index(pattern)].is_some() => self.id(pattern),
            _ => self.call("float", pattern),
        }
    }

    /// A float in another format; a wider one holds the same number.
    fn narrowed(&mut self, float: u64, rounding: Rounding, format: Format) -> Id {
        let from = self.formats[index(float)].map_or(0, Format::width);
        if from <= format.width() {
            return self.id(float);
        }
        let narrow = self.call(&format!("f{}", format.width()), float);
        self.rounded(narrow, rounding)
    }

    /// A node as bits, where it may stand for a float.
    fn bits(&mut self, number: u64) -> Id {
        match self.node(number) {
            Node::Constant { value, bits: 79 } => self.built.terms.leaf(format!("{value:#x}")),
            _ if self.formats[index(number)].is_some() => self.call("bits", number),
            _ => self.id(number),
        }
    }

    fn is_constant(&self, number: u64, value: u128, bits: u64) -> bool {
        self.node(number) == Node::Constant { value, bits }
    }

    /// The source, where a node is these bits of it.
    fn slice(&self, number: u64, hi: u64, lo: u64) -> Option<u64> {
        match self.node(number) {
            Node::Extract {
                source,
                hi: h,
                lo: l,
            } if (h, l) == (hi, lo) => Some(source),
            _ => None,
        }
    }

    /// The two halves of a Concat.
    fn halves(&self, number: u64) -> Option<(u64, u64)> {
        match self.node(number) {
            Node::Concat { high, low } => Some((high, low)),
            _ => None,
        }
    }

    /// The image, where a node is the number that `fld` at 80 reads from
    /// it: sign, exponent and fraction if the integer bit is 0 exactly
    /// where the exponent is.
    fn image_read(&self, node: Node) -> Option<u64> {
        let Node::Ite {
            condition, then, ..
        } = node
        else {
            return None;
        };
        let (sign, rest) = self.halves(then)?;
        let (exponent, fraction) = self.halves(rest)?;
        let image = self.slice(sign, 79, 79)?;
        let same = self.slice(exponent, 78, 64) == Some(image)
            && self.slice(fraction, 62, 0) == Some(image);
        (same && self.is_canonical(condition, exponent, image)).then_some(image)
    }

    /// Whether a condition says that an image's integer bit fits its
    /// exponent.
    fn is_canonical(&self, condition: u64, exponent: u64, image: u64) -> bool {
        let Node::BoolOr(one, other) = self.node(condition) else {
            return false;
        };
        let (Node::BoolAnd(zero, no_lead), Node::BoolAnd(no_zero, lead)) =
            (self.node(one), self.node(other))
        else {
            return false;
        };
        let (Node::Eq(e, none), Node::Eq(bit, set)) = (self.node(zero), self.node(lead)) else {
            return false;
        };
        self.node(no_lead) == Node::BoolNot(lead)
            && self.node(no_zero) == Node::BoolNot(zero)
            && e == exponent
            && self.is_constant(none, 0, 15)
            && self.slice(bit, 63, 63) == Some(image)
            && self.is_constant(set, 1, 1)
    }

    /// The pattern, where a node is its 80-bit image as `fstp` writes it.
    fn image_written(&self, node: Node) -> Option<u64> {
        let Node::Concat { high: sign, low } = node else {
            return None;
        };
        let (exponent, low) = self.halves(low)?;
        let (integer, fraction) = self.halves(low)?;
        let pattern = self.slice(sign, 78, 78)?;
        let Node::Ite {
            condition,
            then,
            otherwise,
        } = self.node(integer)
        else {
            return None;
        };
        let Node::Eq(e, zero) = self.node(condition) else {
            return None;
        };
        let same = self.slice(exponent, 77, 63) == Some(pattern)
            && self.slice(fraction, 62, 0) == Some(pattern)
            && e == exponent
            && self.is_constant(zero, 0, 15)
            && self.is_constant(then, 0, 1)
            && self.is_constant(otherwise, 1, 1);
        same.then_some(pattern)
    }

    /// C0, C2, C3 and the free word, where a node is a status word as the
    /// compares write it: B, C3, TOP, C2, a zero, C0, the lower byte.
    fn status(&self, node: Node) -> Option<[u64; 4]> {
        let Node::Concat { high: busy, low } = node else {
            return None;
        };
        let rest = self.slice(busy, 15, 15)?;
        let (c3, low) = self.halves(low)?;
        let (top, low) = self.halves(low)?;
        let (c2, low) = self.halves(low)?;
        let (c1, low) = self.halves(low)?;
        let (c0, byte) = self.halves(low)?;
        let same = self.slice(top, 13, 11) == Some(rest)
            && self.slice(byte, 7, 0) == Some(rest)
            && self.is_constant(c1, 0, 1);
        same.then_some([c0, c2, c3, rest])
    }
}

/// What a flag is called.
pub fn flag_name(flag: Flag) -> &'static str {
    match flag {
        Flag::CF => "CF",
        Flag::PF => "PF",
        Flag::ZF => "ZF",
        Flag::OF => "OF",
        Flag::SF => "SF",
    }
}

/// A node's number, which was found to be in the list.
fn index(number: u64) -> usize {
    usize::try_from(number).unwrap_or(usize::MAX)
}
