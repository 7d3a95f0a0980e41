//! Lower-case hex.

/// A keyid, a public key or a digest, its hex undone.
pub type Id = [u8; 32];

/// Not the value of a digit.
const NONE: u8 = 0xff;

/// The value of each digit. Digits come in no order, so a table is quicker than a choice by ranges.
static VALUES: [u8; 256] = {
    let digits = b"0123456789abcdef";
    let mut values = [NONE; 256];
    let mut value = 0;
    while value < digits.len() {
        values[digits[value] as usize] = value as u8;
        value += 1;
    }
    values
};

fn value(digit: u8) -> u8 {
    VALUES[usize::from(digit)]
}

/// Whether all bytes are digits of lower-case hex.
pub fn is_hex(digits: &[u8]) -> bool {
    digits.iter().all(|digit| value(*digit) != NONE)
}

/// The 32 bytes that 64 digits stand for.
pub fn id(digits: &[u8]) -> Option<Id> {
    if digits.len() != 64 || !is_hex(digits) {
        return None;
    }
    let mut id = [0; 32];
    for (byte, pair) in id.iter_mut().zip(digits.chunks_exact(2)) {
        *byte = value(pair[0]) << 4 | value(pair[1]);
    }
    Some(id)
}
