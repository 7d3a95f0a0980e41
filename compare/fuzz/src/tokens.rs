//! Edits of a text by its tokens. The text need not be one: whatever stands between strings and brackets is a token too.

use std::ops::Range;

use side::random::Random;

/// Tokens that stand for something in a file.
const TELLING: &[&[u8]] = &[
    b"{",
    b"}",
    b"[",
    b"]",
    b",",
    b":",
    b"{}",
    b"[]",
    b"0",
    b"1",
    b"2",
    b"-1",
    b"16",
    b"17",
    b"2147483647",
    b"2147483648",
    b"4294967295",
    b"4294967296",
    b"20260101120000",
    b"9007199254740991",
    b"9007199254740992",
    b"9007199254740993",
    b"18446744073709551616",
    b"true",
    b"false",
    b"null",
    b"\"\"",
    b"\"root\"",
    b"\"timestamp\"",
    b"\"snapshot\"",
    b"\"targets\"",
    b"\"version\"",
    b"\"expires\"",
    b"\"spec_version\"",
    b"\"1.0\"",
    b"\"2.0\"",
    b"\"1970-01-01T00:00:00Z\"",
    b"\"9999-12-31T23:59:59Z\"",
    b"\"snapshot.json\"",
    b"\"targets.json\"",
    b"\"sha256\"",
    b"\"length\"",
    b"\"~\":[],",
];

/// Where each token stands, in order and without a gap.
pub fn tokens(text: &[u8]) -> Vec<Range<usize>> {
    let mut tokens = Vec::new();
    let mut start = 0;
    while start < text.len() {
        let end = start + length_of_first(&text[start..]);
        tokens.push(start..end);
        start = end;
    }
    tokens
}

/// How long the first token of a text is that is not empty.
fn length_of_first(text: &[u8]) -> usize {
    match text[0] {
        b'"' => length_of_string(text),
        b'{' | b'}' | b'[' | b']' | b',' | b':' => 1,
        _ => {
            let ends = |byte: &u8| b"\"{}[],:".contains(byte);
            text.iter().position(ends).unwrap_or(text.len())
        }
    }
}

/// A string up to the quotation mark that closes it, or to the end.
fn length_of_string(text: &[u8]) -> usize {
    let mut place = 1;
    while place < text.len() {
        match text[place] {
            b'"' => return place + 1,
            b'\\' => place += 2,
            _ => place += 1,
        }
    }
    text.len()
}

/// The text after one edit of its tokens; some are taken from another text.
pub fn edited(text: &[u8], other: &[u8], random: &mut Random) -> Vec<u8> {
    let places = tokens(text);
    if places.is_empty() {
        return random.pick(TELLING).to_vec();
    }
    let mut pieces: Vec<&[u8]> = places.iter().map(|place| &text[place.clone()]).collect();
    let (one, two) = (random.below(pieces.len()), random.below(pieces.len()));
    match random.below(8) {
        0 => drop(pieces.remove(one)),
        1 => pieces.insert(one, pieces[one]),
        2 => pieces.swap(one, two),
        3 => pieces[one] = random.pick(TELLING),
        4 => pieces.insert(one, random.pick(TELLING)),
        5 => drop(pieces.drain(one.min(two)..=one.max(two))),
        6 => replace_by_its_like(&mut pieces, other, random),
        _ => replace_by_its_like(&mut pieces, text, random),
    }
    pieces.concat()
}

/// Replaces a string or number by another one that a text has.
fn replace_by_its_like<'a>(pieces: &mut [&'a [u8]], text: &'a [u8], random: &mut Random) {
    let places: Vec<usize> = (0..pieces.len())
        .filter(|place| kind_of(pieces[*place]).is_some())
        .collect();
    if places.is_empty() {
        return;
    }
    let place = random.pick(&places);
    let present = pieces[place];
    let is_like = |token: &&[u8]| kind_of(token) == kind_of(present) && *token != present;
    let all = tokens(text).into_iter().map(|token| &text[token]);
    let like: Vec<&[u8]> = all.filter(is_like).collect();
    if !like.is_empty() {
        pieces[place] = random.pick(&like);
    }
}

/// Whether a token is a string or a number, or `None`.
fn kind_of(token: &[u8]) -> Option<char> {
    match token[0] {
        b'"' => Some('"'),
        b'-' | b'0'..=b'9' => Some('0'),
        _ => None,
    }
}

#[cfg(test)]
mod tests {
    use super::{edited, tokens};
    use side::random::Random;

    fn written(text: &str) -> Vec<&str> {
        tokens(text.as_bytes()).into_iter().map(|token| &text[token]).collect()
    }

    #[test]
    fn tokens_of_a_text() {
        let text = r#"{"a\"]":[-1,true],"":"\\"}"#;
        let expected = [
            "{",
            r#""a\"]""#,
            ":",
            "[",
            "-1",
            ",",
            "true",
            "]",
            ",",
            "\"\"",
            ":",
            r#""\\""#,
            "}",
        ];
        assert_eq!(written(text), expected);
    }

    #[test]
    fn tokens_of_what_is_no_text() {
        assert_eq!(written(" x\"y"), [" x", "\"y"]);
        assert_eq!(written("\"\\"), ["\"\\"]);
        assert_eq!(written(""), Vec::<&str>::new());
    }

    #[test]
    fn many_edits_of_a_canonical_text_are_canonical() {
        let mut random = Random::new(1, "tokens");
        let (text, other) = (br#"{"a":[1,2,{"b":"c"}],"d":3}"#, br#"{"e":[5,"f"]}"#);
        let edited: Vec<_> = (0..1_000).map(|_| edited(text, other, &mut random)).collect();
        let canonical = edited.iter().filter(|text| paper::json::parse(text).is_ok()).count();
        assert!((100..900).contains(&canonical), "{canonical}");
        assert!(edited.iter().filter(|edited| **edited != *text).count() > 700);
    }
}
