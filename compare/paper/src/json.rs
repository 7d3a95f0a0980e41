//! "Text": canonical JSON.
//!
//! A text is canonical if it is what the canonical writer would write. So it is read generously first: white space,
//! members in any order or repeated, numbers with idle zeros and a minus before zero are all understood. The value is
//! then written again, and the text stands only if not one byte differs. What no canonical writer could ever write
//! (broken UTF-8, control bytes, other escapes, fractions, a ninth level) the reader refuses at once.

use std::collections::BTreeMap;
use std::ops::RangeInclusive;

/// "to depth 8; the outermost counts 1. Depth 9 is refused."
const DEEPEST: usize = 8;

/// "Values: object, array, string, whole number, true, false, null."
#[derive(Clone, Debug, PartialEq, Eq)]
pub enum Value {
    /// `null`
    Null,
    /// `true` or `false`
    Bool(bool),
    /// A whole number of any size.
    Number(Number),
    /// A string "after the escapes are undone".
    String(String),
    /// The items in order.
    Array(Vec<Value>),
    /// The members. The map orders names as the document does: "byte by byte after the escapes are undone, a shorter
    /// prefix first".
    Object(Object),
}

/// The members of an object by name.
pub type Object = BTreeMap<String, Value>;

/// A whole number in its one canonical spelling: "0, or an optional minus and digits that do not begin with 0".
#[derive(Clone, Debug, PartialEq, Eq)]
pub struct Number {
    negative: bool,
    digits: String,
}

impl Number {
    /// The number that a sign and digits mean; idle zeros fall away, and zero has no sign.
    fn new(negative: bool, digits: &str) -> Number {
        match digits.trim_start_matches('0') {
            "" => Number {
                negative: false,
                digits: "0".to_string(),
            },
            digits => Number {
                negative,
                digits: digits.to_string(),
            },
        }
    }

    /// The number, if it is in the range. One with more digits than the range has room for is not.
    pub fn within(&self, range: RangeInclusive<u64>) -> Option<u64> {
        if self.negative {
            return None;
        }
        self.digits.parse().ok().filter(|number| range.contains(number))
    }
}

impl From<u64> for Number {
    fn from(number: u64) -> Number {
        Number::new(false, &number.to_string())
    }
}

/// Why a text is not canonical. The document has one number for all of these; the reason is for the reader of a report.
#[derive(Clone, Copy, Debug, PartialEq, Eq)]
pub enum Fault {
    /// Not "well-formed UTF-8 (RFC 3629)" from this byte on.
    Utf8(usize),
    /// Not even JSON of whole numbers and two escapes, at this byte.
    Grammar(usize),
    /// The bracket at this byte opens a ninth level.
    Depth(usize),
    /// Understood, but a canonical writer would have written another byte here.
    Spelling(usize),
}

/// The value of a canonical text.
pub fn parse(bytes: &[u8]) -> Result<Value, Fault> {
    // Outside of strings only ASCII can stand, and a quotation mark is never part of a longer sequence: so the strings
    // are well-formed exactly if the whole is, or else the reader refuses.
    let text = std::str::from_utf8(bytes).map_err(|error| Fault::Utf8(error.valid_up_to()))?;
    let value = Reader::new(text).read()?;
    match first_difference(bytes, value.written().as_bytes()) {
        None => Ok(value),
        Some(place) => Err(Fault::Spelling(place)),
    }
}

/// The first place where two byte strings differ, the end of the shorter one included.
fn first_difference(left: &[u8], right: &[u8]) -> Option<usize> {
    let common = left.iter().zip(right).take_while(|(l, r)| l == r).count();
    (common < left.len().max(right.len())).then_some(common)
}

impl Value {
    /// The members, if it is an object.
    pub fn object(&self) -> Option<&Object> {
        match self {
            Value::Object(members) => Some(members),
            _ => None,
        }
    }

    /// The items, if it is an array.
    pub fn array(&self) -> Option<&[Value]> {
        match self {
            Value::Array(items) => Some(items),
            _ => None,
        }
    }

    /// The string, its escapes undone, if it is one.
    pub fn string(&self) -> Option<&str> {
        match self {
            Value::String(string) => Some(string),
            _ => None,
        }
    }

    /// The truth value, if it is one.
    pub fn truth(&self) -> Option<bool> {
        match self {
            Value::Bool(truth) => Some(*truth),
            _ => None,
        }
    }

    /// The number, if it is one in the range.
    pub fn within(&self, range: RangeInclusive<u64>) -> Option<u64> {
        match self {
            Value::Number(number) => number.within(range),
            _ => None,
        }
    }

    /// The canonical text of the value.
    pub fn written(&self) -> String {
        let mut text = String::new();
        self.write(&mut text);
        text
    }

    fn write(&self, text: &mut String) {
        match self {
            Value::Null => text.push_str("null"),
            Value::Bool(true) => text.push_str("true"),
            Value::Bool(false) => text.push_str("false"),
            Value::Number(number) => write_number(number, text),
            Value::String(string) => write_string(string, text),
            Value::Array(items) => write_array(items, text),
            Value::Object(members) => write_object(members, text),
        }
    }
}

fn write_number(number: &Number, text: &mut String) {
    if number.negative {
        text.push('-');
    }
    text.push_str(&number.digits);
}

/// "Only `\"` and `\\` are escapes, and both characters are always escaped."
fn write_string(string: &str, text: &mut String) {
    text.push('"');
    for character in string.chars() {
        if matches!(character, '"' | '\\') {
            text.push('\\');
        }
        text.push(character);
    }
    text.push('"');
}

fn write_array(items: &[Value], text: &mut String) {
    text.push('[');
    for (place, item) in items.iter().enumerate() {
        if place > 0 {
            text.push(',');
        }
        item.write(text);
    }
    text.push(']');
}

/// "Member names rise strictly": the map gives them in that order, each once.
fn write_object(members: &Object, text: &mut String) {
    text.push('{');
    for (place, (name, value)) in members.iter().enumerate() {
        if place > 0 {
            text.push(',');
        }
        write_string(name, text);
        text.push(':');
        value.write(text);
    }
    text.push('}');
}

/// An array or object whose closing bracket has not come yet.
enum Open {
    Array(Vec<Value>),
    /// The members so far, and the name whose value comes next.
    Object(Object, String),
}

/// What stands where a value may begin.
enum Start {
    /// A whole value, an empty array or object among them.
    Whole(Value),
    /// Only an opening bracket (and, for an object, the first name): a value comes next.
    Opened,
}

/// Reads one value without recursion: `open` is the stack of brackets not yet closed.
struct Reader<'a> {
    text: &'a [u8],
    place: usize,
    open: Vec<Open>,
}

impl<'a> Reader<'a> {
    fn new(text: &'a str) -> Reader<'a> {
        Reader {
            text: text.as_bytes(),
            place: 0,
            open: Vec::new(),
        }
    }

    /// The one value of the text, with "nothing after the value".
    fn read(mut self) -> Result<Value, Fault> {
        loop {
            let Start::Whole(value) = self.start()? else {
                continue;
            };
            if let Some(outermost) = self.hand_up(value)? {
                self.skip_white_space();
                return if self.place == self.text.len() {
                    Ok(outermost)
                } else {
                    self.fault()
                };
            }
        }
    }

    /// Reads a scalar, or opens an array or object.
    fn start(&mut self) -> Result<Start, Fault> {
        self.skip_white_space();
        match self.peek() {
            Some(b'[') => self.start_array(),
            Some(b'{') => self.start_object(),
            Some(b'"') => Ok(Start::Whole(Value::String(self.string()?))),
            Some(b'-' | b'0'..=b'9') => Ok(Start::Whole(Value::Number(self.number()?))),
            _ => self.word().map(Start::Whole),
        }
    }

    fn start_array(&mut self) -> Result<Start, Fault> {
        self.check_depth()?;
        self.place += 1;
        if self.takes(b']') {
            return Ok(Start::Whole(Value::Array(Vec::new())));
        }
        self.open.push(Open::Array(Vec::new()));
        Ok(Start::Opened)
    }

    fn start_object(&mut self) -> Result<Start, Fault> {
        self.check_depth()?;
        self.place += 1;
        if self.takes(b'}') {
            return Ok(Start::Whole(Value::Object(BTreeMap::new())));
        }
        let name = self.name()?;
        self.open.push(Open::Object(BTreeMap::new(), name));
        Ok(Start::Opened)
    }

    /// "to depth 8": one more bracket may open only while fewer than eight are open.
    fn check_depth(&self) -> Result<(), Fault> {
        if self.open.len() < DEEPEST {
            Ok(())
        } else {
            Err(Fault::Depth(self.place))
        }
    }

    /// Puts a whole value into what is open. Each closing bracket that follows makes another whole value, for the
    /// level above. Gives the outermost value when nothing is open any more, `None` when a value comes next.
    fn hand_up(&mut self, mut value: Value) -> Result<Option<Value>, Fault> {
        while let Some(open) = self.open.pop() {
            value = match open {
                Open::Array(mut items) => {
                    items.push(value);
                    if self.takes(b',') {
                        self.open.push(Open::Array(items));
                        return Ok(None);
                    }
                    self.expect(b']')?;
                    Value::Array(items)
                }
                Open::Object(mut members, name) => {
                    members.insert(name, value);
                    if self.takes(b',') {
                        let next_name = self.name()?;
                        self.open.push(Open::Object(members, next_name));
                        return Ok(None);
                    }
                    self.expect(b'}')?;
                    Value::Object(members)
                }
            };
        }
        Ok(Some(value))
    }

    /// A member's name and the colon after it.
    fn name(&mut self) -> Result<String, Fault> {
        self.skip_white_space();
        let name = self.string()?;
        self.expect(b':')?;
        Ok(name)
    }

    /// A string with its quotation marks; the escapes are undone.
    fn string(&mut self) -> Result<String, Fault> {
        if self.peek() != Some(b'"') {
            return self.fault();
        }
        self.place += 1;
        let mut bytes = Vec::new();
        loop {
            match self.peek() {
                Some(b'"') => break,
                Some(b'\\') => {
                    self.place += 1;
                    bytes.push(self.escaped()?);
                }
                // "House rule: raw bytes below 32 are refused."
                Some(byte) if byte >= 32 => bytes.push(byte),
                _ => return self.fault(),
            }
            self.place += 1;
        }
        self.place += 1;
        Ok(String::from_utf8(bytes).expect("the text is UTF-8 and only ASCII was cut out of it"))
    }

    /// The byte after a backslash: "Only `\"` and `\\` are escapes".
    fn escaped(&self) -> Result<u8, Fault> {
        match self.peek() {
            Some(byte @ (b'"' | b'\\')) => Ok(byte),
            _ => self.fault(),
        }
    }

    /// An optional minus and at least one digit. A fraction or exponent is no part of it, and nothing else that may
    /// follow a number begins that way.
    fn number(&mut self) -> Result<Number, Fault> {
        let negative = self.peek() == Some(b'-');
        if negative {
            self.place += 1;
        }
        let digits: String = self.text[self.place..]
            .iter()
            .take_while(|byte| byte.is_ascii_digit())
            .map(|&byte| char::from(byte))
            .collect();
        if digits.is_empty() {
            return self.fault();
        }
        self.place += digits.len();
        Ok(Number::new(negative, &digits))
    }

    /// "true, false, null"
    fn word(&mut self) -> Result<Value, Fault> {
        let words = [
            ("null", Value::Null),
            ("true", Value::Bool(true)),
            ("false", Value::Bool(false)),
        ];
        for (word, value) in words {
            if self.text[self.place..].starts_with(word.as_bytes()) {
                self.place += word.len();
                return Ok(value);
            }
        }
        self.fault()
    }

    /// The white space of RFC 8259. Understood here, it is found missing when the value is written again.
    fn skip_white_space(&mut self) {
        while let Some(b' ' | b'\t' | b'\n' | b'\r') = self.peek() {
            self.place += 1;
        }
    }

    /// Passes over the byte if it comes next.
    fn takes(&mut self, byte: u8) -> bool {
        self.skip_white_space();
        let comes = self.peek() == Some(byte);
        if comes {
            self.place += 1;
        }
        comes
    }

    fn expect(&mut self, byte: u8) -> Result<(), Fault> {
        if self.takes(byte) { Ok(()) } else { self.fault() }
    }

    fn peek(&self) -> Option<u8> {
        self.text.get(self.place).copied()
    }

    fn fault<T>(&self) -> Result<T, Fault> {
        Err(Fault::Grammar(self.place))
    }
}

#[cfg(test)]
mod tests {
    use super::{Fault, Value, parse};

    fn is_canonical(text: &str) -> bool {
        parse(text.as_bytes()).is_ok()
    }

    fn nested(open: &str, close: &str, depth: usize) -> String {
        format!("{}0{}", open.repeat(depth), close.repeat(depth))
    }

    #[test]
    fn examples_of_the_document() {
        assert!(is_canonical(r#"{"a":1,"a!":2}"#));
        assert!(!is_canonical(r#"{"a":1,"a":2}"#));
        assert!(!is_canonical("[-0]"));
        assert!(!is_canonical("[01]"));
        assert!(!is_canonical("[1,]"));
        assert!(is_canonical(r#"{"signatures":[],"signed":{}}"#));
        assert!(!is_canonical(""));
    }

    #[test]
    fn every_kind_of_value() {
        for text in [
            "{}",
            "[]",
            r#""""#,
            "0",
            "7",
            "-7",
            "10",
            "true",
            "false",
            "null",
            "[[],{}]",
            r#"{"":[true,null,"x"],"b":{"c":-10}}"#,
        ] {
            assert!(is_canonical(text), "{text}");
        }
    }

    #[test]
    fn no_white_space_mark_or_tail() {
        for text in [
            " 0",
            "0 ",
            "[ ]",
            "[0, 1]",
            "{\"a\" :0}",
            "{\"a\":\n0}",
            "0\n",
            "\u{feff}0",
            "0,",
            "00",
            "[]]",
            "{}{}",
        ] {
            assert!(!is_canonical(text), "{text:?}");
        }
    }

    #[test]
    fn broken_numbers_and_words() {
        for text in [
            "-", "-0", "00", "01", "-01", "+1", "1.0", ".5", "1e1", "1E1", "0x1", "tru", "True", "nulll", "NaN", "--1",
        ] {
            assert!(!is_canonical(text), "{text}");
        }
    }

    #[test]
    fn broken_brackets() {
        for text in [
            "[",
            "]",
            "[}",
            "{]",
            "[1",
            "[1,",
            "[,1]",
            "[1,,2]",
            "[1 2]",
            "{",
            r#"{"a"}"#,
            r#"{"a":}"#,
            r#"{"a":1,}"#,
            r#"{,"a":1}"#,
            "{a:1}",
            "{1:1}",
        ] {
            assert!(!is_canonical(text), "{text}");
        }
    }

    #[test]
    fn two_escapes_and_always() {
        assert!(is_canonical(r#""\"\\""#));
        for text in [r#""\/""#, r#""\n""#, r#""\u0041""#, r#""\""#, r#"""""#, r#""\\\""#] {
            assert!(!is_canonical(text), "{text}");
        }
        assert_eq!(parse(br#""a\"\\b""#), Ok(Value::String("a\"\\b".to_string())));
    }

    #[test]
    fn raw_bytes_below_32() {
        for byte in 0..32 {
            assert!(parse(&[b'"', byte, b'"']).is_err(), "{byte}");
        }
        assert!(is_canonical("\" \u{7f}\u{80}\u{9f}\""));
    }

    #[test]
    fn well_formed_utf8() {
        for text in [
            "\u{7ff}",
            "\u{800}",
            "\u{d7ff}",
            "\u{e000}",
            "\u{ffff}",
            "\u{10000}",
            "\u{10ffff}",
        ] {
            assert!(is_canonical(&format!("\"{text}\"")), "{text:?}");
        }
        let broken: [&[u8]; 7] = [
            b"\"\xc0\x80\"",
            b"\"\xe0\x9f\xbf\"",
            b"\"\xed\xa0\x80\"",
            b"\"\xf0\x8f\xbf\xbf\"",
            b"\"\xf4\x90\x80\x80\"",
            b"\"\x80\"",
            b"\"\xe2\x82\"",
        ];
        for bytes in broken {
            assert!(matches!(parse(bytes), Err(Fault::Utf8(_))), "{bytes:x?}");
        }
    }

    #[test]
    fn names_rise_with_the_escapes_undone() {
        for names in [
            r#""a":0,"a\"":0"#,
            r#""a!":0,"a\"":0,"a#":0"#,
            r#""[":0,"\\":0,"]":0"#,
            r#""":0,"a":0"#,
        ] {
            assert!(is_canonical(&format!("{{{names}}}")), "{names}");
        }
        for names in [
            r#""b":0,"a":0"#,
            r#""a!":0,"a":0"#,
            r#""a#":0,"a\"":0"#,
            r#""\\":0,"[":0"#,
            r#""\"":0,"\"":0"#,
        ] {
            assert!(!is_canonical(&format!("{{{names}}}")), "{names}");
        }
    }

    #[test]
    fn numbers_within_a_range() {
        let within = |text: &str, range| parse(text.as_bytes()).unwrap().within(range);
        assert_eq!(within("1", 1..=5), Some(1));
        assert_eq!(within("5", 1..=5), Some(5));
        assert_eq!(within("18446744073709551615", 0..=u64::MAX), Some(u64::MAX));
        for text in [
            "0",
            "6",
            "-1",
            "-5",
            "18446744073709551617",
            "36893488147419103235",
            "\"1\"",
            "true",
            "[1]",
        ] {
            assert_eq!(within(text, 1..=5), None, "{text}");
        }
        assert_eq!(within(&"9".repeat(1_000), 0..=u64::MAX), None);
    }

    #[test]
    fn depth_8_and_9() {
        for (open, close) in [("[", "]"), (r#"{"a":"#, "}"), (r#"[{"a":"#, "}]")] {
            let levels_each = open.matches(['[', '{']).count();
            assert!(is_canonical(&nested(open, close, 8 / levels_each)), "{open}");
            assert!(!is_canonical(&nested(open, close, 8 / levels_each + 1)), "{open}");
        }
        assert!(is_canonical("[[[[[[[[]]]]]]]]"));
        assert_eq!(parse(b"[[[[[[[[[]]]]]]]]]"), Err(Fault::Depth(8)));
    }
}
