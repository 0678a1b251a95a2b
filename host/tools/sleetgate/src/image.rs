//! The 80-bit memory image of a 79-bit pattern.
//!
//! A pattern is sign, 15 exponent bits and 63 fraction bits. Its image
//! has an integer bit between exponent and fraction, ten bytes, low byte
//! first.

use sleetgate_sys::{IMAGE, VALUE};

use crate::Refusal;
use crate::formulas::value;
use crate::node::words;

/// The pattern of the first ten bytes; `free` where they hold no number.
///
/// ```
/// use sleetgate::{Refusal, image};
///
/// let one = [0, 0, 0, 0, 0, 0, 0, 0x80, 0xff, 0x3f];
/// assert_eq!(image::read(&one, 7), Ok(0x1fff_8000_0000_0000_0000));
/// let no_number = [0, 0, 0, 0, 0, 0, 0, 0, 0xff, 0x3f];
/// assert_eq!(image::read(&no_number, 7), Ok(7));
/// assert_eq!(image::read(&one[1..], 7), Err(Refusal::Short));
/// ```
///
/// # Errors
/// [`Refusal::Short`] under ten bytes, then [`Refusal::Wide`] where
/// `free` has more than 79 bits.
pub fn read(image: &[u8], free: u128) -> Result<u128, Refusal> {
    let [low, high] = words(free);
    let mut out = [0; VALUE];
    let number = sleetgate_sys::image_read(image, low, high, &mut out);
    Refusal::told(number, 0).map_or(Ok(value(&out)), Err)
}

/// The image of a pattern.
///
/// ```
/// use sleetgate::{Refusal, image};
///
/// assert_eq!(image::write(1 << 78), Ok([0, 0, 0, 0, 0, 0, 0, 0, 0, 0x80]));
/// assert_eq!(image::write(1 << 79), Err(Refusal::Wide { node: 0 }));
/// ```
///
/// # Errors
/// [`Refusal::Wide`] where the pattern has more than 79 bits.
pub fn write(pattern: u128) -> Result<[u8; IMAGE], Refusal> {
    let [low, high] = words(pattern);
    let mut image = [0; IMAGE];
    let number = sleetgate_sys::image_write(&mut image, low, high);
    Refusal::told(number, 0).map_or(Ok(image), Err)
}
