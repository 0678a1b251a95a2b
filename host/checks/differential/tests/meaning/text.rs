//! The readable text, evaluated as it reads.

use std::collections::HashMap;
use std::iter::Peekable;
use std::str::{Chars, Lines};

use sleetgate::Node;

use crate::floats::{decoded, from_integer, image, integer};
use crate::nodes::{Column, narrowed};

/// What a formula is worth.
#[derive(Debug, Clone, Copy)]
pub enum Value {
    Number(f64),
    /// Bits with their width.
    Bits(u128, u64),
    /// A float that was rounded to so many bits.
    Float(f64, u64),
    Truth(bool),
}

impl Value {
    /// As a number: loaded bits are the pattern of one.
    pub fn number(self) -> f64 {
        match self {
            Self::Number(number) | Self::Float(number, _) => number,
            Self::Bits(bits, width) => decoded(bits, width),
            Self::Truth(_) => panic!("a truth is no number"),
        }
    }

    /// As so many bits.
    pub fn bits(self, width: u64) -> u128 {
        match self {
            Self::Bits(bits, own) => {
                assert_eq!(own, width, "bits of the right width");
                bits
            }
            Self::Truth(truth) => truth.into(),
            Self::Number(number) => integer(number, width),
            Self::Float(..) => panic!("a float is compared as one"),
        }
    }

    /// The float, if this is one that was rounded for a store, and its
    /// width.
    pub fn stored(self) -> Option<(f64, u64)> {
        match self {
            Self::Float(number, width) => Some((number, width)),
            _ => None,
        }
    }

    fn truth(self) -> bool {
        match self {
            Self::Truth(truth) => truth,
            Self::Bits(bits, 1) => bits == 1,
            value => panic!("{value:?} is no truth"),
        }
    }
}

/// A text that is read line by line.
pub struct Text<'a> {
    lines: Lines<'a>,
    known: HashMap<String, Value>,
    /// Values of the flags, in the order in which they are read.
    flags: HashMap<&'static str, Vec<Value>>,
}

impl<'a> Text<'a> {
    /// The text, with the values that the variables of a column have.
    pub fn new(text: &'a str, column: &Column) -> Self {
        let mut text = Self {
            lines: text.lines(),
            known: HashMap::new(),
            flags: HashMap::new(),
        };
        let mut slots: HashMap<u64, u32> = HashMap::new();
        for (node, bits, width) in column.variables() {
            let value = Value::Bits(bits, width);
            let name = match node {
                Node::Input { number, .. } => format!("in{number}"),
                Node::Temporary { number, .. } => format!("m{number}"),
                Node::Status => "fsw".to_owned(),
                Node::Slot { number, .. } => {
                    let times = slots.entry(number).or_default();
                    *times += 1;
                    match *times {
                        1 => format!("s{number}"),
                        times => format!("s{number}_{times}"),
                    }
                }
                Node::Flag(flag) => {
                    text.flags.entry(name(flag)).or_default().push(value);
                    continue;
                }
                _ => continue,
            };
            text.known.insert(name, value);
        }
        for flag in text.flags.values_mut() {
            flag.reverse();
        }
        text
    }

    /// What stands behind this on the next line that begins with it;
    /// lines before it say what parts and flags are.
    pub fn next(&mut self, begin: &str) -> Value {
        loop {
            let line = self
                .lines
                .next()
                .unwrap_or_else(|| panic!("no line {begin}"));
            if let Some(formula) = line.strip_prefix(begin) {
                return self.value(formula);
            }
            if let Some((name, formula)) =
                line.strip_prefix("let ").and_then(|l| l.split_once(" = "))
            {
                let value = self.value(formula);
                self.known.insert(name.to_owned(), value);
            } else if let Some((name, flag)) = line.split_once(" := ")
                && let Some(values) = self.flags.get_mut(flag)
                && let Some(value) = values.pop()
            {
                self.known.insert(name.to_owned(), value);
            } else if let Some((name, "fsw")) = line.split_once(" := ") {
                self.known.insert(name.to_owned(), self.known["fsw"]);
            } else {
                let load = line.split_once(" := [address ");
                assert!(line.starts_with("--") || load.is_some(), "{line}");
            }
        }
    }

    fn value(&self, formula: &str) -> Value {
        let mut formula = Formula {
            rest: formula.chars().peekable(),
            known: &self.known,
        };
        let value = formula.choice();
        assert_eq!(formula.rest.next(), None, "the formula ends here");
        value
    }
}

fn name(flag: sleetgate::Flag) -> &'static str {
    match flag {
        sleetgate::Flag::CF => "CF",
        sleetgate::Flag::PF => "PF",
        sleetgate::Flag::ZF => "ZF",
        sleetgate::Flag::OF => "OF",
        sleetgate::Flag::SF => "SF",
    }
}

/// A formula that is read from left to right.
struct Formula<'a> {
    rest: Peekable<Chars<'a>>,
    known: &'a HashMap<String, Value>,
}

impl Formula<'_> {
    /// Whether this comes next; then it is read.
    fn takes(&mut self, sign: &str) -> bool {
        let mut ahead = self.rest.clone();
        let found = sign.chars().all(|c| ahead.next() == Some(c));
        if found {
            self.rest = ahead;
        }
        found
    }

    fn choice(&mut self) -> Value {
        let first = self.or();
        if !self.takes(" ? ") {
            return first;
        }
        let then = self.or();
        assert!(self.takes(" : "), "a choice has two sides");
        let otherwise = self.or();
        if first.truth() { then } else { otherwise }
    }

    fn or(&mut self) -> Value {
        let mut value = self.and();
        while self.takes(" || ") {
            let other = self.and();
            value = Value::Truth(value.truth() || other.truth());
        }
        value
    }

    fn and(&mut self) -> Value {
        let mut value = self.comparison();
        while self.takes(" && ") {
            let other = self.comparison();
            value = Value::Truth(value.truth() && other.truth());
        }
        value
    }

    #[allow(clippy::float_cmp)]
    fn comparison(&mut self) -> Value {
        let value = self.sum();
        if self.takes(" == ") {
            return Value::Truth(value.number() == self.sum().number());
        }
        if self.takes(" < ") {
            return Value::Truth(value.number() < self.sum().number());
        }
        value
    }

    fn sum(&mut self) -> Value {
        let mut value = self.product();
        loop {
            if self.takes(" + ") {
                value = Value::Number(value.number() + self.product().number());
            } else if self.takes(" - ") {
                value = Value::Number(value.number() - self.product().number());
            } else {
                return value;
            }
        }
    }

    fn product(&mut self) -> Value {
        let mut value = self.signed();
        loop {
            if self.takes(" * ") {
                value = Value::Number(value.number() * self.signed().number());
            } else if self.takes(" / ") {
                value = Value::Number(value.number() / self.signed().number());
            } else {
                return value;
            }
        }
    }

    fn signed(&mut self) -> Value {
        if self.takes("-") {
            return Value::Number(-self.whole().number());
        }
        if self.takes("!") {
            return Value::Truth(!self.whole().truth());
        }
        self.whole()
    }

    fn whole(&mut self) -> Value {
        if self.takes("(") {
            let value = self.choice();
            assert!(self.takes(")"), "a bracket is closed");
            return value;
        }
        let mut word = String::new();
        while let Some(c) = self
            .rest
            .next_if(|c| c.is_ascii_alphanumeric() || "._".contains(*c))
        {
            word.push(c);
        }
        if self.takes("(") {
            return self.call(&word);
        }
        match word.parse() {
            Ok(number) => Value::Number(number),
            Err(_) => *self
                .known
                .get(&word)
                .unwrap_or_else(|| panic!("what is {word}?")),
        }
    }

    fn call(&mut self, name: &str) -> Value {
        let mut parts: HashMap<&str, Value> = HashMap::new();
        let labels = if name == "status" {
            ["C0", "C2", "C3", "rest"]
        } else {
            ["0", "1", "2", "3"]
        };
        for place in labels {
            let label = labels
                .into_iter()
                .find(|label| self.takes(&format!("{label}: ")));
            let value = self.choice();
            parts.insert(label.unwrap_or(place), value);
            if !self.takes(", ") {
                break;
            }
        }
        assert!(self.takes(")"), "a call is closed");
        if name == "status" {
            return status(&parts);
        }
        function(name, parts["0"], parts.get("1").copied())
    }
}

fn function(name: &str, of: Value, second: Option<Value>) -> Value {
    match name {
        "sqrt" => Value::Number(of.number().sqrt()),
        "abs" => Value::Number(of.number().abs()),
        "round" => Value::Number(of.number().round_ties_even()),
        "trunc" => Value::Number(of.number().trunc()),
        "isnan" => Value::Truth(of.number().is_nan()),
        "f32" => Value::Float(narrowed(of.number(), 32), 32),
        "f64" => Value::Float(of.number(), 64),
        "f80" => Value::Float(of.number(), 80),
        "i16" => Value::Bits(whole(of, 16), 16),
        "i32" => Value::Bits(whole(of, 32), 32),
        "i64" => Value::Bits(whole(of, 64), 64),
        "int" => match of {
            Value::Bits(bits, width) => Value::Number(from_integer(bits, width)),
            value => panic!("{value:?} is no integer"),
        },
        "number" => match of {
            Value::Bits(bits, 80) if image(decoded(bits, 80)) == bits => {
                Value::Number(decoded(bits, 80))
            }
            _ => second.expect("a second part"),
        },
        name => panic!("what is {name}?"),
    }
}

fn whole(of: Value, width: u64) -> u128 {
    integer(of.number().round_ties_even(), width)
}

/// B, C3, TOP, C2, a zero, C0, and the lower byte.
fn status(parts: &HashMap<&str, Value>) -> Value {
    let bit = |part: &str| u128::from(parts.get(part).is_some_and(|value| value.truth()));
    let rest = parts["rest"].bits(16) & 0b1011_1000_1111_1111;
    Value::Bits(
        rest | bit("C3") << 14 | bit("C2") << 10 | bit("C0") << 8,
        16,
    )
}
