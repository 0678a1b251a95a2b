//! The nodes, bit by bit.

use differential::rng::Rng;
use sleetgate::{Node, Nodes, Rounding};

use crate::floats::{decoded, from_integer, image, integer, pattern};

/// A value: bits with their width, or a float.
#[derive(Debug, Clone, Copy)]
enum Value {
    Bits(u128, u64),
    Float(f64, u64),
}

/// The value of each node, and what the variables were given.
pub struct Column {
    values: Vec<Value>,
    nodes: Vec<Node>,
}

impl Column {
    /// All values, with random ones for variables.
    pub fn random(nodes: Nodes<'_>, rng: &mut Rng) -> Self {
        let status = rng.word() & 0xffff;
        let mut column = Self {
            values: Vec::new(),
            nodes: nodes.iter().collect(),
        };
        for node in nodes.iter() {
            let value = match node {
                Node::Input { bits, .. }
                | Node::Temporary { bits, .. }
                | Node::Slot { bits, .. } => Value::Bits(variable(bits, rng), bits),
                Node::Flag(_) => Value::Bits(u128::from(rng.word() & 1), 1),
                Node::Status => Value::Bits(status.into(), 16),
                node => column.value(node),
            };
            column.values.push(value);
        }
        column
    }

    /// The bits of a node, and their width.
    pub fn bits(&self, node: u64) -> (u128, u64) {
        match self.values[usize::try_from(node).expect("in memory")] {
            Value::Bits(bits, width) => (bits, width),
            Value::Float(..) => panic!("node {node} is a float"),
        }
    }

    /// The nodes with their bits, floats left out.
    pub fn variables(&self) -> impl Iterator<Item = (Node, u128, u64)> {
        let all = self.nodes.iter().zip(&self.values);
        all.filter_map(|(&node, &value)| match value {
            Value::Bits(bits, width) => Some((node, bits, width)),
            Value::Float(..) => None,
        })
    }

    fn float(&self, node: u64) -> (f64, u64) {
        match self.values[usize::try_from(node).expect("in memory")] {
            Value::Float(number, width) => (number, width),
            Value::Bits(..) => panic!("node {node} is no float"),
        }
    }

    fn truth(&self, node: u64) -> bool {
        self.bits(node).0 == 1
    }

    #[allow(clippy::float_cmp)]
    fn value(&self, node: Node) -> Value {
        let truth = |truth: bool| Value::Bits(truth.into(), 1);
        let bits = |node: u64| self.bits(node).0;
        let float = |node: u64| self.float(node).0;
        match node {
            Node::Constant { value, bits } => Value::Bits(value, bits),
            Node::And(a, b) => Value::Bits(bits(a) & bits(b), self.bits(a).1),
            Node::Xor(a, b) => Value::Bits(bits(a) ^ bits(b), self.bits(a).1),
            Node::Eq(a, b) => truth(bits(a) == bits(b)),
            Node::BoolAnd(a, b) => truth(self.truth(a) && self.truth(b)),
            Node::BoolOr(a, b) => truth(self.truth(a) || self.truth(b)),
            Node::BoolNot(a) => truth(!self.truth(a)),
            Node::Ite {
                condition,
                then,
                otherwise,
            } => {
                let chosen = if self.truth(condition) {
                    then
                } else {
                    otherwise
                };
                Value::Bits(bits(chosen), self.bits(chosen).1)
            }
            Node::Extract { source, hi, lo } => {
                let width = hi - lo + 1;
                Value::Bits(bits(source) >> lo & ((1 << width) - 1), width)
            }
            Node::Concat { high, low } => {
                let ((high, more), (low, width)) = (self.bits(high), self.bits(low));
                Value::Bits(high << width | low, more + width)
            }
            Node::FEq(a, b) => truth(float(a) == float(b)),
            Node::FLt(a, b) => truth(float(a) < float(b)),
            Node::FIsNaN(a) => truth(float(a).is_nan()),
            Node::FpToIeeeBv(a) => self.encoded(a),
            Node::FpToSbv(a, rounding, width) => {
                Value::Bits(integer(rounded(float(a), rounding), width), width)
            }
            node => self.arithmetic(node),
        }
    }

    /// The values of nodes that are floats.
    fn arithmetic(&self, node: Node) -> Value {
        let float = |node: u64| self.float(node).0;
        let (number, width) = match node {
            Node::FAdd(a, b, _) => (float(a) + float(b), 79),
            Node::FSub(a, b, _) => (float(a) - float(b), 79),
            Node::FMul(a, b, _) => (float(a) * float(b), 79),
            Node::FDiv(a, b, _) => (float(a) / float(b), 79),
            Node::FSqrt(a, _) => (float(a).sqrt(), 79),
            Node::FRoundToIntegral(a, rounding) => (rounded(float(a), rounding), 79),
            Node::BvToFp(a, format) => {
                let (bits, width) = self.bits(a);
                assert_eq!(width, u64::from(format.width()), "a pattern of the format");
                (decoded(bits, width), width)
            }
            Node::SbvToFp(a, ..) => {
                let (bits, width) = self.bits(a);
                (from_integer(bits, width), 79)
            }
            Node::FpToFp(a, _, format) => {
                let width = u64::from(format.width());
                (narrowed(float(a), width), width)
            }
            node => panic!("{node:?} is no float"),
        };
        Value::Float(number, width)
    }

    fn encoded(&self, float: u64) -> Value {
        let (number, width) = self.float(float);
        #[allow(clippy::cast_possible_truncation)]
        let bits = match width {
            32 => (number as f32).to_bits().into(),
            64 => number.to_bits().into(),
            _ => pattern(number),
        };
        Value::Bits(bits, width)
    }
}

/// A number in a narrower format.
pub fn narrowed(number: f64, width: u64) -> f64 {
    #[allow(clippy::cast_possible_truncation)]
    let single = f64::from(number as f32);
    if width == 32 { single } else { number }
}

/// A whole number.
fn rounded(number: f64, rounding: Rounding) -> f64 {
    match rounding {
        Rounding::NearestEven => number.round_ties_even(),
        Rounding::TowardZero => number.trunc(),
    }
}

/// The bits of a variable: mostly some number's, so that they are one as
/// a float as well.
fn variable(width: u64, rng: &mut Rng) -> u128 {
    let number = number(rng);
    #[allow(clippy::cast_possible_truncation)]
    match width {
        32 => (number as f32).to_bits().into(),
        64 => number.to_bits().into(),
        79 => pattern(number),
        // Now and then an image that is no number: its integer bit is
        // turned.
        80 => image(number) ^ u128::from(rng.one_in(4)) << 63,
        width => u128::from(rng.word()) & ((1 << width) - 1),
    }
}

fn number(rng: &mut Rng) -> f64 {
    let whole = i16::from_le_bytes([rng.byte(), rng.byte()]);
    match rng.below(12) {
        0 => 0.0,
        1 => -0.0,
        2 => f64::NAN,
        3 => f64::INFINITY,
        4 => 1.0,
        5 => 0.1,
        _ => f64::from(whole) / 64.0,
    }
}
