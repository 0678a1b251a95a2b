//! What stands here where the library is not built: each call says how
//! to build it.

use crate::MISSING;

pub fn classify(_: &[u8], _: &mut [u64]) -> u32 {
    panic!("{MISSING}")
}

pub fn why(_: &[u8], _: &mut [u64]) -> u32 {
    panic!("{MISSING}")
}

pub fn effect(_: &[u8], _: &mut [u64]) -> u32 {
    panic!("{MISSING}")
}

pub fn read_record(_: &[u8], _: usize, _: &mut [u8], _: &mut [u64]) -> u32 {
    panic!("{MISSING}")
}

pub fn lift(_: &[u8], _: &mut [u64], _: &mut [u64], _: &mut [u64], _: &mut [u64]) -> u32 {
    panic!("{MISSING}")
}

pub fn lift_record(
    _: &[u8],
    _: usize,
    _: &mut [u64],
    _: &mut [u64],
    _: &mut [u64],
    _: &mut [u64],
) -> u32 {
    panic!("{MISSING}")
}

pub fn image_read(_: &[u8], _: u64, _: u64, _: &mut [u64]) -> u32 {
    panic!("{MISSING}")
}

pub fn image_write(_: &mut [u8], _: u64, _: u64) -> u32 {
    panic!("{MISSING}")
}

pub fn check(_: &[u64], _: usize, _: &mut [u64]) -> u32 {
    panic!("{MISSING}")
}

pub fn evaluate(_: &[u64], _: usize, _: &[u64], _: &mut [u64], _: &mut [u64]) -> u32 {
    panic!("{MISSING}")
}

pub fn smt_write(_: &[u64], _: usize, _: usize, _: &mut [u8], _: &mut [u64]) -> u32 {
    panic!("{MISSING}")
}

pub fn smt_read(_: &[u8], _: &mut [u64], _: &mut [u64]) -> u32 {
    panic!("{MISSING}")
}
