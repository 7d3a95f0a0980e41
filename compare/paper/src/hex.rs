//! Lower-case hex. Keyids, keys and digests stay the text they are in a file; bytes that come from the caller are
//! written in hex to be compared with them.

/// How many hex digits a keyid, a public key or a digest has.
pub const OF_32_BYTES: usize = 64;

/// How many hex digits a signature has.
pub const OF_64_BYTES: usize = 128;

/// Whether the text is so many digits of "lower-case hex".
pub fn is_hex(text: &str, digits: usize) -> bool {
    text.len() == digits && text.bytes().all(|byte| matches!(byte, b'0'..=b'9' | b'a'..=b'f'))
}

/// The bytes in hex.
pub fn written(bytes: &[u8]) -> String {
    bytes.iter().map(|byte| format!("{byte:02x}")).collect()
}

/// "refused, they give that many zeros"
pub fn zeros(digits: usize) -> String {
    "0".repeat(digits)
}

/// The bytes that an even number of hex digits stand for.
pub fn bytes(text: &str) -> Option<Vec<u8>> {
    if !text.len().is_multiple_of(2) || !is_hex(text, text.len()) {
        return None;
    }
    let byte = |place| u8::from_str_radix(&text[place..place + 2], 16).ok();
    (0..text.len()).step_by(2).map(byte).collect()
}

#[cfg(test)]
mod tests {
    use super::{bytes, is_hex, written};

    #[test]
    fn so_many_lower_case_digits() {
        assert!(is_hex("09af", 4));
        for text in ["09a", "09aff", "09aF", "09ag", "09a ", "09\u{e4}", ""] {
            assert!(!is_hex(text, 4), "{text}");
        }
    }

    #[test]
    fn there_and_back() {
        let every: Vec<u8> = (0..=255).collect();
        assert_eq!(bytes(&written(&every)), Some(every));
        assert_eq!(written(&[0, 10, 255]), "000aff");
        for text in ["0", "0G", "AB", "+1", "\u{e4}"] {
            assert_eq!(bytes(text), None, "{text}");
        }
    }
}
