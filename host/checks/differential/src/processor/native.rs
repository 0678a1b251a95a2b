//! The x87 unit of an x86-64 processor.
//!
//! Each function leaves the register stack as it found it: empty.

use std::arch::asm;

use plain::image::IMAGE;

/// Instructions that begin and end with an empty stack.
macro_rules! x87 {
    ($($part:tt)*) => {
        asm!(
            $($part)*,
            out("st(0)") _, out("st(1)") _, out("st(2)") _, out("st(3)") _,
            out("st(4)") _, out("st(5)") _, out("st(6)") _, out("st(7)") _,
            options(nostack),
        )
    };
}

/// A load from one place and a store to another, each of its own width.
macro_rules! moved {
    ($load:literal, $store:literal, $from:expr, $to:expr) => {
        // SAFETY: each place has the bytes that its instruction touches.
        unsafe { x87!($load, $store, from = in(reg) $from, to = in(reg) $to) }
    };
}

/// An image that was loaded and stored again.
#[must_use]
pub fn reloaded(image: &[u8; IMAGE]) -> [u8; IMAGE] {
    let mut stored = [0; IMAGE];
    moved!(
        "fld tbyte ptr [{from}]",
        "fstp tbyte ptr [{to}]",
        image.as_ptr(),
        stored.as_mut_ptr()
    );
    stored
}

/// The image of a number of 32 bits.
#[must_use]
pub fn widened_32(bits: u32) -> [u8; IMAGE] {
    let mut stored = [0; IMAGE];
    moved!(
        "fld dword ptr [{from}]",
        "fstp tbyte ptr [{to}]",
        &raw const bits,
        stored.as_mut_ptr()
    );
    stored
}

/// The image of a number of 64 bits.
#[must_use]
pub fn widened_64(bits: u64) -> [u8; IMAGE] {
    let mut stored = [0; IMAGE];
    moved!(
        "fld qword ptr [{from}]",
        "fstp tbyte ptr [{to}]",
        &raw const bits,
        stored.as_mut_ptr()
    );
    stored
}

/// An image, rounded to 32 bits.
#[must_use]
pub fn narrowed_32(image: &[u8; IMAGE]) -> u32 {
    let mut stored = 0;
    moved!(
        "fld tbyte ptr [{from}]",
        "fstp dword ptr [{to}]",
        image.as_ptr(),
        &raw mut stored
    );
    stored
}

/// An image, rounded to 64 bits.
#[must_use]
pub fn narrowed_64(image: &[u8; IMAGE]) -> u64 {
    let mut stored = 0;
    moved!(
        "fld tbyte ptr [{from}]",
        "fstp qword ptr [{to}]",
        image.as_ptr(),
        &raw mut stored
    );
    stored
}

/// The exponent of a finite number that is not zero, and its significand
/// of 64 bits, of which the highest is 1.
#[must_use]
pub fn taken_apart(image: &[u8; IMAGE]) -> (i32, u64) {
    let (mut exponent, mut significand) = (0, [0; IMAGE]);
    // SAFETY: ten bytes are read, ten and four are written.
    unsafe {
        x87!(
            "fld tbyte ptr [{from}]",
            "fxtract",
            "fstp tbyte ptr [{significand}]",
            "fistp dword ptr [{exponent}]",
            from = in(reg) image.as_ptr(),
            significand = in(reg) significand.as_mut_ptr(),
            exponent = in(reg) &raw mut exponent
        );
    }
    let low = *significand.first_chunk().expect("eight bytes");
    (exponent, u64::from_le_bytes(low))
}

/// The status word that `fxam` leaves of an image.
#[must_use]
pub fn status(image: &[u8; IMAGE]) -> u16 {
    let status: u16;
    // SAFETY: ten bytes are read.
    unsafe {
        x87!(
            "fld tbyte ptr [{from}]",
            "fxam",
            "fnstsw ax",
            "fstp st(0)",
            from = in(reg) image.as_ptr(),
            out("ax") status
        );
    }
    status
}
