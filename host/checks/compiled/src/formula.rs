//! Formulas, evaluated as they read.

use std::cmp::Ordering;
use std::collections::HashMap;

use crate::extended::Extended;

/// What a formula is worth.
#[derive(Debug, Clone, Copy, PartialEq, Eq)]
pub enum Value {
    Number(Extended),
    /// The pattern of a float that was rounded to so many bits.
    Float(u128, u32),
    /// Bits with their width.
    Bits(u128, u32),
    /// An 80-bit image that was loaded, and what the register held then.
    Image(u128, Extended),
    /// What a register holds where an image is no number.
    Held,
    /// A constant without a width.
    Whole(u128),
    Truth(bool),
}

impl Value {
    /// As a number: loaded bits are the pattern of one.
    ///
    /// # Errors
    /// Where it is none.
    pub fn number(self) -> Result<Extended, String> {
        let number = match self {
            Self::Number(number) => Some(number),
            Self::Float(bits, width) | Self::Bits(bits, width @ (32 | 64)) => {
                Extended::of_pattern(bits, width)
            }
            _ => None,
        };
        number.ok_or_else(|| format!("{self:?} is no number"))
    }

    /// As a truth.
    ///
    /// # Errors
    /// Where it is none.
    pub fn truth(self) -> Result<bool, String> {
        match self {
            Self::Truth(truth) => Ok(truth),
            Self::Whole(bits @ (0 | 1)) => Ok(bits == 1),
            value => Err(format!("{value:?} is no truth")),
        }
    }

    /// Whether so many bits of memory are this value, where all NaNs are
    /// one.
    ///
    /// # Errors
    /// Where it is not for memory of this width.
    pub fn is_memory(self, memory: u128, width: u32) -> Result<bool, String> {
        match self {
            Self::Float(bits, own) if own == width => {
                let numbers = (
                    Extended::of_pattern(bits, width),
                    Extended::of_pattern(memory, width),
                );
                let nan = |number: Option<Extended>| number.is_some_and(Extended::is_nan);
                Ok(bits == memory || nan(numbers.0) && nan(numbers.1))
            }
            Self::Bits(bits, own) if own == width => Ok(bits == memory),
            value => Err(format!("{value:?} is not of {width} bits")),
        }
    }
}

/// The value of a formula, by the values of its names.
///
/// # Errors
/// What cannot be read, or has no meaning.
pub fn value(text: &str, known: &HashMap<String, Value>) -> Result<Value, String> {
    let mut formula = Formula { rest: text, known };
    let value = formula.choice()?;
    match formula.rest {
        "" => Ok(value),
        rest => Err(format!("{rest} is left of {text}")),
    }
}

/// A formula that is read from left to right.
struct Formula<'a> {
    rest: &'a str,
    known: &'a HashMap<String, Value>,
}

impl Formula<'_> {
    /// Whether this comes next; then it is read.
    fn takes(&mut self, sign: &str) -> bool {
        let behind = self.rest.strip_prefix(sign);
        self.rest = behind.unwrap_or(self.rest);
        behind.is_some()
    }

    fn must_take(&mut self, sign: &str) -> Result<(), String> {
        if self.takes(sign) {
            return Ok(());
        }
        Err(format!("{sign} is missing before {}", self.rest))
    }

    fn choice(&mut self) -> Result<Value, String> {
        let first = self.or()?;
        if !self.takes(" ? ") {
            return Ok(first);
        }
        let then = self.or()?;
        self.must_take(" : ")?;
        let otherwise = self.or()?;
        Ok(if first.truth()? { then } else { otherwise })
    }

    fn or(&mut self) -> Result<Value, String> {
        let mut value = self.and()?;
        while self.takes(" || ") {
            let other = self.and()?.truth()?;
            value = Value::Truth(value.truth()? || other);
        }
        Ok(value)
    }

    fn and(&mut self) -> Result<Value, String> {
        let mut value = self.comparison()?;
        while self.takes(" && ") {
            let other = self.comparison()?.truth()?;
            value = Value::Truth(value.truth()? && other);
        }
        Ok(value)
    }

    fn comparison(&mut self) -> Result<Value, String> {
        let value = self.sum()?;
        let wanted = if self.takes(" == ") {
            Ordering::Equal
        } else if self.takes(" < ") {
            Ordering::Less
        } else {
            return Ok(value);
        };
        let other = self.sum()?.number()?;
        Ok(Value::Truth(
            value.number()?.compared(other) == Some(wanted),
        ))
    }

    fn sum(&mut self) -> Result<Value, String> {
        let mut value = self.product()?;
        loop {
            let join = if self.takes(" + ") {
                Extended::plus
            } else if self.takes(" - ") {
                Extended::minus
            } else {
                return Ok(value);
            };
            let other = self.product()?.number()?;
            value = Value::Number(join(value.number()?, other));
        }
    }

    fn product(&mut self) -> Result<Value, String> {
        let mut value = self.signed()?;
        loop {
            let join = if self.takes(" * ") {
                Extended::times
            } else if self.takes(" / ") {
                Extended::over
            } else {
                return Ok(value);
            };
            let other = self.signed()?.number()?;
            value = Value::Number(join(value.number()?, other));
        }
    }

    fn signed(&mut self) -> Result<Value, String> {
        if self.takes("-") {
            return Ok(Value::Number(self.whole()?.number()?.negated()));
        }
        if self.takes("!") {
            return Ok(Value::Truth(!self.whole()?.truth()?));
        }
        self.whole()
    }

    fn whole(&mut self) -> Result<Value, String> {
        if self.takes("(") {
            let value = self.choice()?;
            self.must_take(")")?;
            return Ok(value);
        }
        let word = self.word();
        if self.takes("(") {
            return self.call(word);
        }
        if word.starts_with(|c: char| c.is_ascii_digit()) {
            return constant(word);
        }
        let known = self.known.get(word).copied();
        known.ok_or_else(|| format!("what is {word}?"))
    }

    /// The letters, digits and dots that come next.
    fn word<'b>(&mut self) -> &'b str
    where
        Self: 'b,
    {
        let inside = |c: char| c.is_ascii_alphanumeric() || "._".contains(c);
        let end = self.rest.find(|c| !inside(c)).unwrap_or(self.rest.len());
        let (word, rest) = self.rest.split_at(end);
        self.rest = rest;
        word
    }

    fn call(&mut self, name: &str) -> Result<Value, String> {
        if name == "status" {
            return self.status();
        }
        let first = self.choice()?;
        let second = if self.takes(", ") {
            Some(self.choice()?)
        } else {
            None
        };
        self.must_take(")")?;
        match second {
            Some(second) => joined(name, first, second),
            None => function(name, first),
        }
    }

    /// B, C3, TOP, C2, a zero, C0, and the lower byte.
    fn status(&mut self) -> Result<Value, String> {
        let mut bits = 0;
        for (part, place) in [("C0: ", 8), ("C2: ", 10), ("C3: ", 14)] {
            self.must_take(part)?;
            bits |= u128::from(self.choice()?.truth()?) << place;
            self.must_take(", ")?;
        }
        self.must_take("rest: ")?;
        let Value::Bits(rest, 16) = self.choice()? else {
            return Err("the rest of a status word has 16 bits".to_owned());
        };
        self.must_take(")")?;
        Ok(Value::Bits(bits | rest & 0b1011_1000_1111_1111, 16))
    }
}

/// A number with a decimal point, or bits without a width.
fn constant(word: &str) -> Result<Value, String> {
    let value = if word.contains('.') {
        let number = word.parse::<f64>().ok();
        let number = number.and_then(|number| Extended::of_pattern(number.to_bits().into(), 64));
        number.map(Value::Number)
    } else {
        word.parse().ok().map(Value::Whole)
    };
    value.ok_or_else(|| format!("{word} is no constant"))
}

fn function(name: &str, of: Value) -> Result<Value, String> {
    let wrong = || format!("what is {name}?");
    if let ("int", Value::Bits(bits, width)) = (name, of) {
        let number = Extended::of_integer(bits, width);
        return number.map(Value::Number).ok_or_else(wrong);
    }
    let number = of.number()?;
    let float = |width| number.pattern(width).map(|bits| Value::Float(bits, width));
    let integer = |width| number.integer(width).map(|bits| Value::Bits(bits, width));
    let value = match name {
        "sqrt" => Some(Value::Number(number.root())),
        "abs" => Some(Value::Number(number.magnitude())),
        "round" => Some(Value::Number(number.rounded())),
        "trunc" => Some(Value::Number(number.truncated())),
        "isnan" => Some(Value::Truth(number.is_nan())),
        "f32" => float(32),
        "f64" => float(64),
        "f80" => float(80),
        "i16" => integer(16),
        "i32" => integer(32),
        "i64" => integer(64),
        _ => None,
    };
    value.ok_or_else(wrong)
}

/// The number of an 80-bit image, or the second value where it is none:
/// where the integer bit is not set exactly if the exponent is not 0.
fn joined(name: &str, first: Value, second: Value) -> Result<Value, String> {
    let ("number", Value::Image(image, held)) = (name, first) else {
        return Err(format!("what is {name} of {first:?}?"));
    };
    let (exponent, integer) = (image >> 64 & 0x7fff, image >> 63 & 1);
    if (exponent == 0) == (integer == 0) {
        let number = Extended::of_pattern(image, 80);
        return number
            .map(Value::Number)
            .ok_or("an image has 80 bits".to_owned());
    }
    match second {
        Value::Held => Ok(Value::Number(held)),
        second => second.number().map(Value::Number),
    }
}

#[cfg(test)]
mod tests {
    use super::{Value, value};
    use crate::extended::Extended;
    use std::collections::HashMap;

    fn number(number: f64) -> Value {
        let number = Extended::of_pattern(number.to_bits().into(), 64);
        Value::Number(number.expect("64 bits"))
    }

    const NINE: Extended = Extended([9; 10]);

    fn known() -> HashMap<String, Value> {
        let names = [
            ("m0", Value::Bits(2.5_f32.to_bits().into(), 32)),
            ("s1_2", Value::Bits(0xffff, 16)),
            ("CF1", Value::Truth(true)),
            ("in0", number(-4.0)),
            ("in1", Value::Bits(0xffff, 16)),
            ("m2", Value::Image(0x3fff << 64 | 1, NINE)),
            ("m3", Value::Image(0x3fff << 64 | 1 << 63, NINE)),
            ("in2", Value::Held),
        ];
        names.map(|(name, value)| (name.to_owned(), value)).into()
    }

    #[test]
    fn values() {
        let all = [
            ("m0 + int(s1_2) * in0", number(6.5)),
            ("m0 - 1.0 - 1.0", number(0.5)),
            ("-(m0 - 1.0) / 2.0", number(-0.75)),
            ("CF1 ? abs(in0) : sqrt(in0)", number(4.0)),
            ("(!CF1 && m0 == m0 ? in0 : m0) / in0", number(-0.625)),
            ("isnan(m0) || in0 < m0", Value::Truth(true)),
            ("i32(m0)", Value::Bits(2, 32)),
            ("i32(trunc(-m0))", Value::Bits(0xffff_fffe, 32)),
            ("round(in0 - 0.5)", number(-4.0)),
            ("f32(m0)", Value::Float(2.5_f32.to_bits().into(), 32)),
            ("number(m2, in0)", number(-4.0)),
            ("number(m2, in2)", Value::Number(NINE)),
            ("number(m3, in0)", number(1.0)),
            (
                "status(C0: CF1, C2: 0, C3: in0 == in0, rest: in1)",
                Value::Bits(0xf9ff, 16),
            ),
        ];
        for (text, expected) in all {
            assert_eq!(value(text, &known()), Ok(expected), "{text}");
        }
    }

    #[test]
    fn what_has_no_meaning_is_told() {
        for text in [
            "m1",
            "m0 +",
            "m2 + m0",
            "CF1 + m0",
            "foo(m0)",
            "(m0",
            "m0 ? m0 : m0",
            "int(in0)",
            "1x.5",
        ] {
            assert!(value(text, &known()).is_err(), "{text}");
        }
    }
}
