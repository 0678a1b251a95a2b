//! The term of a definition, where its node's number and sort are read.

use super::cursor::{Cursor, Token};
use super::subset::{Below, State};
use super::text::{format_text, operation, rounding};
use crate::sorts::{Format, Sort};
use crate::state::ROW;

/// Widths of integers that are floats of the stack's own format.
const INTEGERS: [u64; 3] = [16, 32, 64];

/// What the first bytes of a term say.
#[derive(Clone, Copy)]
enum Opening {
    Kind(u64),
    /// Kind 9 or 13.
    Equal,
    /// Kind 25, 28 or 29.
    ToFloat,
}

/// The row of a node of this sort, whose term stands here.
pub fn term(cursor: &mut Cursor, state: &State, node: u64, sort: Sort) -> Token<[u64; ROW]> {
    let below = state.below(node);
    let mut term = Term {
        cursor,
        state,
        node,
        below,
    };
    match sort {
        Sort::Bits(width) => term.bits(width),
        Sort::Float(format) => term.float(format),
    }
}

struct Term<'c, 'b, 's> {
    cursor: &'c mut Cursor<'b>,
    state: &'s State<'s>,
    node: u64,
    below: Below,
}

impl Term<'_, '_, '_> {
    fn has(&self, kind: u64) -> bool {
        self.state.universe.has(kind)
    }

    /// One of these beginnings, of those that are possible.
    fn opening(&mut self, all: &[(bool, Opening, &str)]) -> Token<Opening> {
        let has = |opening: &Opening| match opening {
            Opening::Kind(kind) => self.state.universe.has(*kind),
            Opening::Equal | Opening::ToFloat => true,
        };
        let possible = all
            .iter()
            .filter(|(possible, opening, _)| *possible && has(opening));
        let family = possible.map(|&(_, opening, text)| (text, "", opening));
        self.cursor.one_of(family)
    }

    /// An earlier node whose sort will do.
    fn operand(&mut self, mark: &str, will_do: impl Fn(Sort) -> bool) -> Token<u64> {
        self.cursor
            .one_of(self.state.names(self.node, mark, will_do))
    }

    /// An earlier node of this sort.
    fn of_sort(&mut self, mark: &str, sort: Sort) -> Token<u64> {
        self.operand(mark, |other| other == sort)
    }

    fn rounding(&mut self) -> Token<u64> {
        let roundings = &self.state.universe.roundings;
        let family = roundings.iter().map(|&mode| (rounding(mode), " ", mode));
        self.cursor.one_of(family)
    }

    fn sort(&self, node: u64) -> Sort {
        self.state.entries[&node].sort
    }

    fn bits(&mut self, width: u64) -> Token<[u64; ROW]> {
        let [bits, truth] = [width, 1].map(Sort::Bits);
        match self.bits_opening(width)? {
            Opening::Kind(6) => {
                let value = self.cursor.binary(width, &self.state.universe.digits)?;
                let [low, high] = crate::values::words(value);
                Ok([6, low, high, width])
            }
            Opening::Kind(kind @ 7..=8) => {
                Ok([kind, self.of_sort(" ", bits)?, self.of_sort(")", bits)?, 0])
            }
            Opening::Kind(kind @ 10..=11) => {
                let a = self.of_sort(") (= #b1 ", truth)?;
                Ok([kind, a, self.of_sort(")) #b1 #b0)", truth)?, 0])
            }
            Opening::Kind(12) => Ok([12, self.of_sort(")) #b1 #b0)", truth)?, 0, 0]),
            Opening::Kind(14) => self.extract(width),
            Opening::Kind(15) => self.concat(width),
            Opening::Kind(27) => {
                let mode = self.rounding()?;
                let a = self.operand(")", |sort| sort.float().is_some())?;
                Ok([27, a, mode, width])
            }
            Opening::Kind(kind) => self.compare(kind),
            Opening::Equal | Opening::ToFloat => self.equal(width),
        }
    }

    fn bits_opening(&mut self, width: u64) -> Token<Opening> {
        use Opening::{Equal, Kind};
        let truth = width == 1;
        let [of_bits, some_float] = [self.below.bits(1), self.below.some_float()];
        let alike = self.below.bits(width);
        let wider = self.below.widths().any(|w| w >= width);
        let both = self
            .below
            .widths()
            .any(|w| w < width && self.below.bits(width - w));
        let equal = self.is_choice(width) || self.is_equality(width);
        let integer = self.state.universe.integers.contains(&width);
        let to_sbv = format!("((_ fp.to_sbv {width}) ");
        self.opening(&[
            (true, Kind(6), "#b"),
            (alike, Kind(7), "(bvand "),
            (alike, Kind(8), "(bvxor "),
            (equal, Equal, "(ite (= "),
            (truth && of_bits, Kind(10), "(ite (and (= #b1 "),
            (truth && of_bits, Kind(11), "(ite (or (= #b1 "),
            (truth && of_bits, Kind(12), "(ite (not (= #b1 "),
            (wider, Kind(14), "((_ extract "),
            (both, Kind(15), "(concat "),
            (truth && some_float, Kind(20), "(ite (fp.eq "),
            (truth && some_float, Kind(21), "(ite (fp.lt "),
            (truth && some_float, Kind(22), "(ite (fp.isNaN "),
            (integer && some_float, Kind(27), &to_sbv),
        ])
    }

    /// Whether a node of this width can be an Ite.
    fn is_choice(&self, width: u64) -> bool {
        self.has(13) && self.below.bits(1) && self.below.bits(width)
    }

    /// Whether a node of this width can be an Eq.
    fn is_equality(&self, width: u64) -> bool {
        self.has(9) && width == 1 && self.below.widths().next().is_some()
    }

    /// What follows `(ite (= `: the condition of an Ite compares with 1.
    fn equal(&mut self, width: u64) -> Token<[u64; ROW]> {
        let choice = self.is_choice(width).then_some(("#b1", " ", None));
        let any = self.is_equality(width);
        let names = self
            .state
            .names(self.node, " ", |sort| any && sort.bits().is_some());
        let names = names.map(|(name, mark, node)| (name, mark, Some(node)));
        let Some(a) = self.cursor.one_of(choice.into_iter().chain(names))? else {
            let bits = Sort::Bits(width);
            let a = self.of_sort(") ", Sort::Bits(1))?;
            return Ok([13, a, self.of_sort(" ", bits)?, self.of_sort(")", bits)?]);
        };
        let b = self.of_sort(") #b1 #b0)", self.sort(a))?;
        Ok([9, a, b, 0])
    }

    fn extract(&mut self, width: u64) -> Token<[u64; ROW]> {
        let widest = self.below.widths().last().expect("some bits");
        let hi = self.cursor.number(&[width - 1..=widest - 1], " ")?;
        let lo = hi + 1 - width;
        self.cursor.fixed(&format!("{lo}) "))?;
        let a = self.operand(")", |sort| sort.bits().is_some_and(|w| w > hi))?;
        Ok([14, a, hi, lo])
    }

    fn concat(&mut self, width: u64) -> Token<[u64; ROW]> {
        let names = self.state.names(self.node, " ", |sort| {
            let high = sort.bits().filter(|&w| w < width);
            high.is_some_and(|w| self.below.bits(width - w))
        });
        let a = self.cursor.one_of(names)?;
        let low = width - self.sort(a).width();
        Ok([15, a, self.of_sort(")", Sort::Bits(low))?, 0])
    }

    /// Kinds 20 to 22.
    fn compare(&mut self, kind: u64) -> Token<[u64; ROW]> {
        let float = |sort: Sort| sort.float().is_some();
        if kind == 22 {
            return Ok([kind, self.operand(") #b1 #b0)", float)?, 0, 0]);
        }
        let a = self.operand(" ", float)?;
        let b = self.of_sort(") #b1 #b0)", self.sort(a))?;
        Ok([kind, a, b, 0])
    }

    fn float(&mut self, format: Format) -> Token<[u64; ROW]> {
        let sort = Sort::Float(format);
        match self.float_opening(format)? {
            Opening::Kind(kind @ 16..=19) => {
                let mode = self.rounding()?;
                Ok([
                    kind,
                    self.of_sort(" ", sort)?,
                    self.of_sort(")", sort)?,
                    mode,
                ])
            }
            Opening::Kind(kind) => {
                let mode = self.rounding()?;
                Ok([kind, self.of_sort(")", sort)?, mode, 0])
            }
            Opening::Equal | Opening::ToFloat => self.made_float(format),
        }
    }

    fn float_opening(&mut self, format: Format) -> Token<Opening> {
        use Opening::{Kind, ToFloat};
        let alike = self.below.float(format);
        let arithmetic: Vec<(u64, String)> = (16..=19)
            .map(|kind| (kind, format!("({} ", operation(kind))))
            .collect();
        let to_fp = format!("((_ to_fp {}) ", format_text(format));
        let made = self.is_read(format) || self.is_rounded(format);
        let mut all = vec![
            (alike, Kind(23), "(fp.sqrt "),
            (alike, Kind(24), "(fp.roundToIntegral "),
            (made, ToFloat, to_fp.as_str()),
        ];
        let named = arithmetic.iter();
        all.extend(named.map(|(kind, text)| (alike, Kind(*kind), text.as_str())));
        self.opening(&all)
    }

    /// Whether a float of this format can be a BvToFp.
    fn is_read(&self, format: Format) -> bool {
        self.has(25) && self.below.bits(format.width())
    }

    /// Whether a float of this format can be made with a rounding.
    fn is_rounded(&self, format: Format) -> bool {
        let integer = INTEGERS.iter().any(|&width| self.below.bits(width));
        self.rounds_floats() || self.rounds_integers(format) && integer
    }

    fn rounds_floats(&self) -> bool {
        self.has(29) && self.below.some_float()
    }

    fn rounds_integers(&self, format: Format) -> bool {
        self.has(28) && format == Format::EXTENDED
    }

    /// What follows the `to_fp` of a format: a rounding, or the name of what
    /// is read as it is.
    fn made_float(&mut self, format: Format) -> Token<[u64; ROW]> {
        let modes = self.state.universe.roundings.iter();
        let modes = modes.map(|&mode| (rounding(mode), " ", Err(mode)));
        let (rounded, read) = (self.is_rounded(format), self.is_read(format));
        let modes = modes.filter(|_| rounded);
        let pattern = move |sort| read && sort == Sort::Bits(format.width());
        let names = self.state.names(self.node, ")", pattern);
        let names = names.map(|(name, mark, node)| (name, mark, Ok(node)));
        let mode = match self.cursor.one_of(modes.chain(names))? {
            Ok(a) => return Ok([25, a, 0, format.number()]),
            Err(mode) => mode,
        };
        let floats = self.rounds_floats();
        let integers = self.rounds_integers(format);
        let a = self.operand(")", |sort| match sort {
            Sort::Bits(width) => integers && INTEGERS.contains(&width),
            Sort::Float(_) => floats,
        })?;
        let kind = if self.sort(a).float().is_some() {
            29
        } else {
            28
        };
        Ok([kind, a, mode, format.number()])
    }
}
