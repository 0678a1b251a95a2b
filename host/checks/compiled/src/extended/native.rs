//! The arithmetic of an x86-64 processor's x87 unit.
//!
//! Each function leaves the register stack and the control word as it
//! found them: empty, and as a process begins.

use std::arch::asm;
use std::cmp::Ordering;

use super::Extended;

/// Control words: rounding to nearest even, and toward zero.
const NEAREST: u16 = 0x037f;
const TOWARD_ZERO: u16 = 0x0f7f;

/// Instructions that begin and end with an empty stack.
macro_rules! x87 {
    ($($part:tt)*) => {
        // SAFETY: each place has the bytes that its instruction touches.
        unsafe {
            asm!(
                $($part)*,
                out("st(0)") _, out("st(1)") _, out("st(2)") _, out("st(3)") _,
                out("st(4)") _, out("st(5)") _, out("st(6)") _, out("st(7)") _,
                options(nostack),
            )
        }
    };
}

/// A load from bytes and a store to other bytes.
macro_rules! moved {
    ($load:literal, $store:literal, $from:expr, $to:ty) => {{
        let (from, mut to): (_, $to) = ($from, Default::default());
        x87!(
            concat!($load, " ptr [{from}]"), concat!($store, " ptr [{to}]"),
            from = in(reg) &raw const from, to = in(reg) &raw mut to
        );
        to
    }};
}

/// One instruction on two numbers, which leaves one.
macro_rules! joined {
    ($name:literal, $a:expr, $b:expr) => {{
        let mut to = [0; 10];
        x87!(
            "fld tbyte ptr [{a}]", "fld tbyte ptr [{b}]", $name, "fstp tbyte ptr [{to}]",
            a = in(reg) &raw const $a.0, b = in(reg) &raw const $b.0, to = in(reg) &raw mut to
        );
        Extended(to)
    }};
}

impl Extended {
    /// The number of a pattern of 32 or 64 bits, or of an image of 80.
    #[must_use]
    pub fn of_pattern(bits: u128, width: u32) -> Option<Self> {
        let bytes = bits.to_le_bytes();
        let four: [u8; 4] = *bytes.first_chunk()?;
        let eight: [u8; 8] = *bytes.first_chunk()?;
        match width {
            32 => Some(Self(moved!("fld dword", "fstp tbyte", four, [u8; 10]))),
            64 => Some(Self(moved!("fld qword", "fstp tbyte", eight, [u8; 10]))),
            80 => bytes.first_chunk().copied().map(Self),
            _ => None,
        }
    }

    /// The number that an integer is.
    pub(super) fn of_whole(whole: i64) -> Self {
        Self(moved!("fild qword", "fstp tbyte", whole, [u8; 10]))
    }

    /// The pattern of 32 or 64 bits, or the image of 80, of this number.
    #[must_use]
    pub fn pattern(self, width: u32) -> Option<u128> {
        match width {
            32 => Some(moved!("fld tbyte", "fstp dword", self.0, u32).into()),
            64 => Some(moved!("fld tbyte", "fstp qword", self.0, u64).into()),
            80 => {
                let mut bytes = [0; 16];
                bytes[..10].copy_from_slice(&self.0);
                Some(u128::from_le_bytes(bytes))
            }
            _ => None,
        }
    }

    /// The integer of 16, 32 or 64 bits that is nearest.
    #[must_use]
    pub fn integer(self, width: u32) -> Option<u128> {
        match width {
            16 => Some(moved!("fld tbyte", "fistp word", self.0, u16).into()),
            32 => Some(moved!("fld tbyte", "fistp dword", self.0, u32).into()),
            64 => Some(moved!("fld tbyte", "fistp qword", self.0, u64).into()),
            _ => None,
        }
    }

    #[must_use]
    pub fn plus(self, other: Self) -> Self {
        joined!("faddp st(1), st", self, other)
    }

    #[must_use]
    pub fn minus(self, other: Self) -> Self {
        joined!("fsubp st(1), st", self, other)
    }

    #[must_use]
    pub fn times(self, other: Self) -> Self {
        joined!("fmulp st(1), st", self, other)
    }

    #[must_use]
    pub fn over(self, other: Self) -> Self {
        joined!("fdivp st(1), st", self, other)
    }

    #[must_use]
    pub fn root(self) -> Self {
        let mut to = self.0;
        x87!(
            "fld tbyte ptr [{to}]", "fsqrt", "fstp tbyte ptr [{to}]",
            to = in(reg) &raw mut to
        );
        Self(to)
    }

    /// The whole number that is nearest.
    #[must_use]
    pub fn rounded(self) -> Self {
        self.whole(NEAREST)
    }

    /// The whole number next to it toward zero.
    #[must_use]
    pub fn truncated(self) -> Self {
        self.whole(TOWARD_ZERO)
    }

    fn whole(self, control: u16) -> Self {
        let (mut to, before) = (self.0, NEAREST);
        x87!(
            "fldcw word ptr [{control}]", "fld tbyte ptr [{to}]", "frndint",
            "fstp tbyte ptr [{to}]", "fldcw word ptr [{before}]",
            control = in(reg) &raw const control, before = in(reg) &raw const before,
            to = in(reg) &raw mut to
        );
        Self(to)
    }

    /// How it stands to another number; none beside a NaN.
    #[must_use]
    pub fn compared(self, other: Self) -> Option<Ordering> {
        let (below, equal, unordered): (u8, u8, u8);
        x87!(
            "fld tbyte ptr [{b}]", "fld tbyte ptr [{a}]", "fucomip st, st(1)", "fstp st(0)",
            "setb {below}", "sete {equal}", "setp {unordered}",
            a = in(reg) &raw const self.0, b = in(reg) &raw const other.0,
            below = out(reg_byte) below, equal = out(reg_byte) equal,
            unordered = out(reg_byte) unordered
        );
        match (unordered, below, equal) {
            (1, ..) => None,
            (_, 1, _) => Some(Ordering::Less),
            (_, _, 1) => Some(Ordering::Equal),
            _ => Some(Ordering::Greater),
        }
    }
}
