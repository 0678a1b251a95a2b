//! The 80-bit image, compared with the processor's own loads and stores,
//! and with its rules said plainly.

use plain::image::{Fields, IMAGE, image, number, read, write};
use plain::sorts::Format;
use plain::values::words;
use plain::{MODELLED, TOO_SHORT};

use crate::patterns::{Patterns, bits, part};
use crate::processor::{
    Class, examined, narrowed_32, narrowed_64, reloaded, taken_apart, widened_32, widened_64,
};
use crate::report::{Report, hex};
use crate::rng::Rng;
use crate::subject::Images;

/// Bytes and words that a case may lend, and what they hold.
const BYTES: usize = IMAGE + 3;
const WORDS: usize = 4;
const BYTE_BEFORE: u8 = 0xa5;
const WORDS_BEFORE: [u64; WORDS] = [0xa5a5, 0x5a5a, 0x1111, 0x2222];

/// Exponents at the limits, and that of one.
const EXPONENTS: [u128; 6] = [0, 1, 0x3ffe, 0x3fff, 0x7ffe, 0x7fff];

const FRACTION: u32 = 63;
const BIAS: i32 = 0x3fff;

/// Compare `size` images.
pub fn run(subject: &impl Images, size: u64, seed: u64) -> Report {
    let mut rng = Rng::new(seed);
    let mut run = Run {
        subject,
        patterns: Patterns::default(),
        report: Report::default(),
    };
    for _ in 0..size {
        match rng.below(8) {
            0 => run.single(&mut rng),
            1 => run.double(&mut rng),
            _ => run.any(&mut rng),
        }
        if rng.one_in(16) {
            run.slices(&mut rng);
        }
    }
    run.report.note("images", size);
    run.report
}

/// A run under way.
struct Run<'a, S> {
    subject: &'a S,
    patterns: Patterns,
    report: Report,
}

impl<S: Images> Run<'_, S> {
    /// Any image: what is read is what the processor finds in it, and
    /// what is written is what the processor stores of it.
    fn any(&mut self, rng: &mut Rng) {
        let bytes = random(rng);
        let free = self.patterns.float(rng, Format::EXTENDED);
        let (class, negative) = examined(&bytes);
        let got = self.read(&bytes, free);
        let found = match got {
            Ok(pattern) if numbered(&bytes, class) => {
                self.report.note(name(class), 1);
                let stored = reloaded(&bytes);
                told(pattern) == (class, negative)
                    && same_number(&bytes, class, pattern)
                    && self.write(pattern) == Ok(stored)
                    && stored == bytes
            }
            Ok(pattern) => {
                self.report.note("without a number", 1);
                pattern == free
            }
            Err(_) => false,
        };
        let expected = number(&bytes).unwrap_or(free);
        self.hold(found && got == Ok(expected), || {
            format!(
                "image {}, free {free:#x}: {class:?}, negative {negative}\n\
                 expected {expected:#x}\ngot      {got:x?}",
                hex(&bytes)
            )
        });
    }

    /// A number of 32 bits, which the processor widens and narrows.
    fn single(&mut self, rng: &mut Rng) {
        let pattern = self.patterns.float(rng, Format::SINGLE);
        let from = u32::try_from(pattern).expect("32 bits");
        let narrowed = |image: &[u8; IMAGE]| narrowed_32(image).into();
        self.widened(Format::SINGLE, pattern, widened_32(from), narrowed);
    }

    /// A number of 64 bits, likewise.
    fn double(&mut self, rng: &mut Rng) {
        let pattern = self.patterns.float(rng, Format::DOUBLE);
        let from = u64::try_from(pattern).expect("64 bits");
        let narrowed = |image: &[u8; IMAGE]| narrowed_64(image).into();
        self.widened(Format::DOUBLE, pattern, widened_64(from), narrowed);
    }

    /// The image of a widened number is read as that number, and what is
    /// written of it is narrowed to the number it was.
    fn widened(
        &mut self,
        format: Format,
        pattern: u128,
        bytes: [u8; IMAGE],
        narrowed: impl Fn(&[u8; IMAGE]) -> u128,
    ) {
        self.report.note("widened by fld", 1);
        let expected = widen(format, pattern);
        let got = self.read(&bytes, 0);
        let written = self.write(expected);
        let back = written.map(|image| narrowed(&image));
        let same = got == Ok(expected) && back == Ok(quiet(format, pattern));
        self.hold(same, || {
            format!(
                "{pattern:#x} of {format:?}, widened to {}\n\
                 expected {expected:#x}\ngot      {got:x?}\nwritten  {written:x?}",
                hex(&bytes)
            )
        });
    }

    /// Slices of any length and patterns of any width, against the rules
    /// said plainly: answers, and what was lent.
    fn slices(&mut self, rng: &mut Rng) {
        let mut bytes = [BYTE_BEFORE; BYTES];
        bytes[..IMAGE].copy_from_slice(&random(rng));
        let (lent, words_lent) = (rng.between(IMAGE - 2, BYTES), rng.below(WORDS + 1));
        let width = *rng.pick(&[79, 80, 127]);
        let free = bits(rng, width);
        self.slice_read(&bytes[..lent], words_lent, free);
        self.slice_write(&bytes[..lent], free);
    }

    fn slice_read(&mut self, lent: &[u8], words_lent: usize, free: u128) {
        let mut expected = (TOO_SHORT, WORDS_BEFORE);
        if words_lent >= 2 {
            match read(lent, free) {
                Ok(pattern) => {
                    expected.0 = MODELLED;
                    expected.1[..2].copy_from_slice(&words(pattern));
                }
                Err(number) => {
                    expected.0 = number;
                    expected.1[..2].fill(0);
                }
            }
        }
        self.report.count(expected.0);
        let [low, high] = words(free);
        let mut out = WORDS_BEFORE;
        let number = self
            .subject
            .image_read(lent, low, high, &mut out[..words_lent]);
        if (number, out) != expected {
            self.report.differs(|| {
                format!(
                    "read of {}, {words_lent} words lent, free {free:#x}\n\
                     expected {expected:x?}\ngot      {number} {out:x?}",
                    hex(lent)
                )
            });
        }
    }

    fn slice_write(&mut self, lent: &[u8], pattern: u128) {
        let mut expected = lent.to_vec();
        let number = write(&mut expected, pattern);
        self.report.count(number);
        let [low, high] = words(pattern);
        let mut got = lent.to_vec();
        let told = self.subject.image_write(&mut got, low, high);
        if (told, &got) != (number, &expected) {
            self.report.differs(|| {
                format!(
                    "write of {pattern:#x} to {}\nexpected {number} {}\ngot      {told} {}",
                    hex(lent),
                    hex(&expected),
                    hex(&got)
                )
            });
        }
    }

    /// What the subject reads.
    fn read(&self, image: &[u8; IMAGE], free: u128) -> Result<u128, u32> {
        let [low, high] = words(free);
        let mut out = [0; 2];
        match self.subject.image_read(image, low, high, &mut out) {
            MODELLED => Ok(u128::from(out[1]) << 64 | u128::from(out[0])),
            number => Err(number),
        }
    }

    /// What the subject writes.
    fn write(&self, pattern: u128) -> Result<[u8; IMAGE], u32> {
        let [low, high] = words(pattern);
        let mut image = [BYTE_BEFORE; IMAGE];
        match self.subject.image_write(&mut image, low, high) {
            MODELLED => Ok(image),
            number => Err(number),
        }
    }

    fn hold(&mut self, same: bool, say: impl FnOnce() -> String) {
        self.report.count(MODELLED);
        if !same {
            self.report.differs(say);
        }
    }
}

/// An image with fields at their limits, whose integer bit is mostly
/// right.
pub fn random(rng: &mut Rng) -> [u8; IMAGE] {
    let exponent = match rng.below(3) {
        0 => bits(rng, 15),
        _ => *rng.pick(&EXPONENTS),
    };
    let fields = Fields {
        sign: u128::from(rng.one_in(2)),
        exponent,
        fraction: part(rng, FRACTION.into()),
    };
    let mut image = image(fields.pattern());
    if rng.one_in(4) {
        image[7] ^= 0x80;
    }
    image
}

/// Whether an image that the processor puts in this class has a number
/// (the manual, section 6). The processor takes an exponent of 0 with the
/// integer bit for a denormal number too; here it has none.
fn numbered(image: &[u8; IMAGE], class: Class) -> bool {
    match class {
        Class::Unsupported => false,
        Class::Denormal => image[7] & 0x80 == 0,
        _ => true,
    }
}

/// The class and the sign that a pattern's fields tell.
fn told(pattern: u128) -> (Class, bool) {
    let fields = Fields::of(pattern);
    let class = match (fields.exponent, fields.fraction) {
        (0, 0) => Class::Zero,
        (0, _) => Class::Denormal,
        (0x7fff, 0) => Class::Infinity,
        (0x7fff, _) => Class::Nan,
        _ => Class::Normal,
    };
    (class, fields.sign == 1)
}

/// Whether the processor finds the pattern's exponent and significand in
/// an image of this class. Those of a denormal number are normalised.
fn same_number(image: &[u8; IMAGE], class: Class, pattern: u128) -> bool {
    let fields = Fields::of(pattern);
    let whole = fields.integer_bit() << FRACTION | fields.fraction;
    let found = match class {
        Class::Normal | Class::Denormal => taken_apart(image),
        _ => return true,
    };
    let shift = whole.leading_zeros() - u128::BITS / 2;
    let exponent = fields.exponent.max(1) as i32 - BIAS - shift as i32;
    found == (exponent, (whole << shift) as u64)
}

fn name(class: Class) -> &'static str {
    match class {
        Class::Unsupported => "unsupported",
        Class::Nan => "NaNs",
        Class::Normal => "normal numbers",
        Class::Infinity => "infinities",
        Class::Zero => "zeros",
        Class::Denormal => "denormal numbers",
    }
}

/// A pattern whose NaN is quiet: the top fraction bit is set.
fn quiet(format: Format, pattern: u128) -> u128 {
    if plain::values::held(format, pattern) == plain::values::nan(format) {
        pattern | 1 << (format.significand - 2)
    } else {
        pattern
    }
}

/// A number of a narrower format as a pattern of 79 bits: exactly, and a
/// NaN as a quiet one.
fn widen(format: Format, pattern: u128) -> u128 {
    let pattern = quiet(format, pattern);
    let narrow = format.significand - 1;
    let highest = (1 << format.exponent) - 1;
    let fraction = pattern & ((1 << narrow) - 1);
    let exponent = pattern >> narrow & highest;
    let rebased = 0x3fff - (highest >> 1);
    let (exponent, fraction) = if exponent == highest {
        (0x7fff, fraction << (FRACTION - narrow))
    } else if exponent != 0 {
        (exponent + rebased, fraction << (FRACTION - narrow))
    } else if fraction == 0 {
        (0, 0)
    } else {
        // Its highest bit becomes the integer bit.
        let top = fraction.ilog2();
        let rest = fraction ^ 1 << top;
        let exponent = rebased + 1 - u128::from(narrow - top);
        (exponent, rest << (FRACTION - top))
    };
    let sign = pattern >> (narrow + format.exponent);
    Fields {
        sign,
        exponent,
        fraction,
    }
    .pattern()
}
