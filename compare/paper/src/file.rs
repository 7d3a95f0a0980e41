//! A file as it comes from the shelf: refusals 1 and 2, which come before any form is looked at.

use crate::json::{self, Value};
use crate::refusal::Refusal;

/// "file longer than 32,768 bytes"; "32,768 bytes may pass, 32,769 is 1."
const LONGEST_FILE: usize = 32_768;

/// The value a file holds, or the lower of refusals 1 and 2.
pub fn read(file: &[u8]) -> Result<Value, Refusal> {
    if file.len() > LONGEST_FILE {
        return Err(Refusal::TooLong);
    }
    json::parse(file).map_err(|_| Refusal::NotCanonical)
}

#[cfg(test)]
mod tests {
    use super::read;
    use crate::refusal::number_of;

    fn number(file: &[u8]) -> u8 {
        number_of(&read(file))
    }

    /// A string that makes a file of exactly `length` bytes.
    fn string_file(length: usize) -> Vec<u8> {
        format!("\"{}\"", "x".repeat(length - 2)).into_bytes()
    }

    #[test]
    fn the_limit_is_32768_bytes() {
        assert_eq!(number(&string_file(32_767)), 0);
        assert_eq!(number(&string_file(32_768)), 0);
        assert_eq!(number(&string_file(32_769)), 1);
    }

    #[test]
    fn too_long_is_said_before_not_canonical() {
        assert_eq!(number(&[b' '; 32_768]), 2);
        assert_eq!(number(&[b' '; 32_769]), 1);
    }

    #[test]
    fn empty_input_is_not_canonical() {
        assert_eq!(number(b""), 2);
    }
}
