//! One number in groups of seven bits, lowest group first.

use crate::answers::{CUT, PADDED, TOO_BIG};

/// The most bytes a number may have.
pub const MAX_BYTES: usize = 10;

/// Bit 7 of a byte: another group follows.
pub const FOLLOWS: u8 = 0x80;

/// The shortest form of a number.
pub fn encode(value: u64) -> Vec<u8> {
    let mut bytes = Vec::new();
    let mut rest = value;
    while rest > 0x7f {
        bytes.push((rest & 0x7f) as u8 | FOLLOWS);
        rest >>= 7;
    }
    bytes.push(rest as u8);
    bytes
}

/// The value of the number that starts at a place and how many bytes it took, or CUT, PADDED or TOO-BIG.
pub fn read(bytes: &[u8], place: usize) -> Result<(u64, usize), u64> {
    let mut value = 0;
    for (group, &byte) in bytes.iter().skip(place).take(MAX_BYTES).enumerate() {
        if byte == 0 && group > 0 {
            return Err(PADDED);
        }
        if byte > 1 && group == MAX_BYTES - 1 {
            return Err(TOO_BIG);
        }
        value |= u64::from(byte & !FOLLOWS) << (7 * group);
        if byte & FOLLOWS == 0 {
            return Ok((value, group + 1));
        }
    }
    Err(CUT)
}
