//! The x87 unit of the machine that this runs on, or that of the emulator
//! where the machine is not x86-64.
//!
//! All exceptions are masked, as a process finds them, so a signalling NaN
//! that is converted becomes a quiet one and nothing is raised; a load
//! or store of 80 bits converts nothing.

use plain::image::IMAGE;

#[cfg(target_arch = "x86_64")]
#[path = "processor/native.rs"]
mod unit;

#[cfg(not(target_arch = "x86_64"))]
#[path = "processor/emulated.rs"]
mod unit;

pub use unit::*;

/// What is said where the machine is not x86-64.
const EMULATED: &str = "a processor's x87: this machine is not x86-64, the emulator's x87 is \
                        asked, which is software of its own";

/// Say where the unit is not a processor's.
pub fn tell_emulated() {
    if cfg!(not(target_arch = "x86_64")) {
        crate::left_out(EMULATED);
    }
}

/// What `fxam` says of a number.
#[derive(Debug, Clone, Copy, PartialEq, Eq)]
pub enum Class {
    Unsupported,
    Nan,
    Normal,
    Infinity,
    Zero,
    Denormal,
}

/// The class and the sign of an image.
///
/// # Panics
/// Where the unit says that a register which was just loaded is empty.
#[must_use]
pub fn examined(image: &[u8; IMAGE]) -> (Class, bool) {
    let status = status(image);
    let set = |at: u32| status >> at & 1 == 1;
    let (c0, c1, c2, c3) = (set(8), set(9), set(10), set(14));
    let class = match (c3, c2, c0) {
        (false, false, false) => Class::Unsupported,
        (false, false, true) => Class::Nan,
        (false, true, false) => Class::Normal,
        (false, true, true) => Class::Infinity,
        (true, false, false) => Class::Zero,
        (true, true, false) => Class::Denormal,
        (true, _, true) => panic!("status {status:#x}"),
    };
    (class, c1)
}

#[cfg(test)]
mod tests {
    use super::{
        Class, examined, narrowed_32, narrowed_64, reloaded, taken_apart, widened_32, widened_64,
    };

    #[test]
    fn one_and_its_kin() {
        let one = [0, 0, 0, 0, 0, 0, 0, 0x80, 0xff, 0x3f];
        assert_eq!(reloaded(&one), one);
        assert_eq!(widened_32(1_f32.to_bits()), one);
        assert_eq!(widened_64(1_f64.to_bits()), one);
        assert_eq!(narrowed_32(&one), 1_f32.to_bits());
        assert_eq!(narrowed_64(&one), 1_f64.to_bits());
        assert_eq!(examined(&one), (Class::Normal, false));
        assert_eq!(taken_apart(&one), (0, 1 << 63));
        assert_eq!(
            taken_apart(&widened_64(0.3125_f64.to_bits())),
            (-2, 5 << 61)
        );
        let unnormal = [0, 0, 0, 0, 0, 0, 0, 0, 0xff, 0xbf];
        assert_eq!(examined(&unnormal), (Class::Unsupported, true));
        assert_eq!(reloaded(&unnormal), unnormal);
    }
}
