//! The lines with which find answers, whole.

use paper::hex;

use crate::shelf::sha256::Digest;

/// An image that is listed, and how many names were compared.
pub fn found(length: u64, digest: &Digest, compared: usize) -> String {
    format!("find 0 {length} {} {compared}", hex::written(digest))
}

/// A path that is not listed (15): zeros, but for the names compared.
pub fn not_listed(compared: usize) -> String {
    format!("find 15 0 {} {compared}", zeros())
}

/// A refusal of 1 to 8: nothing but zeros.
pub fn refused(number: u8) -> String {
    format!("find {number} 0 {} 0", zeros())
}

fn zeros() -> String {
    hex::zeros(hex::OF_32_BYTES)
}
