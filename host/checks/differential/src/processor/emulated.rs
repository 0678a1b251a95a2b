//! The x87 unit of the emulator QEMU, where the machine is not x86-64. That
//! is software of its own: to be equal to it says less than to be equal to
//! a processor.

use std::cell::RefCell;
use std::path::Path;

use emulator::Served;
use plain::image::IMAGE;

const PROGRAM: &str = concat!(env!("OUT_DIR"), "/x87");

thread_local! {
    static SERVED: RefCell<Served> = RefCell::new(Served::start(Path::new(PROGRAM)));
}

/// Load two numbers, do something with them and store its outcome: the
/// three letters say how (`x87.c`).
#[must_use]
pub fn asked(letters: &[u8; 3], numbers: [u128; 2]) -> u128 {
    let mut request = [0; 40];
    request[..3].copy_from_slice(letters);
    request[8..24].copy_from_slice(&numbers[0].to_le_bytes());
    request[24..].copy_from_slice(&numbers[1].to_le_bytes());
    let mut answer = [0; 16];
    SERVED.with_borrow_mut(|served| served.ask(&request, &mut answer));
    u128::from_le_bytes(answer)
}

/// The same for one number.
fn alone(letters: &[u8; 3], number: u128) -> u128 {
    asked(letters, [number, 0])
}

/// An image as the number that its bytes are.
fn number(image: &[u8; IMAGE]) -> u128 {
    let mut bytes = [0; 16];
    bytes[..IMAGE].copy_from_slice(image);
    u128::from_le_bytes(bytes)
}

fn image(number: u128) -> [u8; IMAGE] {
    *number.to_le_bytes().first_chunk().expect("16 bytes")
}

/// An image that was loaded and stored again.
#[must_use]
pub fn reloaded(from: &[u8; IMAGE]) -> [u8; IMAGE] {
    image(alone(b"t=t", number(from)))
}

/// The image of a number of 32 bits.
#[must_use]
pub fn widened_32(bits: u32) -> [u8; IMAGE] {
    image(alone(b"s=t", bits.into()))
}

/// The image of a number of 64 bits.
#[must_use]
pub fn widened_64(bits: u64) -> [u8; IMAGE] {
    image(alone(b"l=t", bits.into()))
}

/// An image, rounded to 32 bits.
#[must_use]
pub fn narrowed_32(from: &[u8; IMAGE]) -> u32 {
    alone(b"t=s", number(from)) as u32
}

/// An image, rounded to 64 bits.
#[must_use]
pub fn narrowed_64(from: &[u8; IMAGE]) -> u64 {
    alone(b"t=l", number(from)) as u64
}

/// The exponent of a finite number that is not zero, and its significand
/// of 64 bits, of which the highest is 1.
#[must_use]
pub fn taken_apart(from: &[u8; IMAGE]) -> (i32, u64) {
    let exponent = alone(b"tei", number(from)) as i32;
    (exponent, alone(b"tmt", number(from)) as u64)
}

/// The status word that `fxam` leaves of an image.
#[must_use]
pub fn status(from: &[u8; IMAGE]) -> u16 {
    alone(b"txi", number(from)) as u16
}
