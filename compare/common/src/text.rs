//! "Text" (01): a cursor over canonical JSON that validates what it passes over.

use std::cmp::Ordering;
use std::ops::RangeInclusive;

/// "Objects and arrays may hold one another, to depth 8"
const MAX_DEPTH: u8 = 8;

/// The text is not canonical, or a value is not what was asked for.
#[derive(Clone, Copy, Debug, PartialEq, Eq)]
pub struct Fault;

/// What reading a value gives.
pub type Result<T> = std::result::Result<T, Fault>;

/// Whether the bytes are one canonical value with "nothing after the value".
pub fn is_canonical(text: &[u8]) -> bool {
    read_whole(text, Reader::skip).is_ok()
}

/// Reads the one value of a text.
pub fn read_whole<'a, T>(text: &'a [u8], read: impl FnOnce(&mut Reader<'a>) -> Result<T>) -> Result<T> {
    // Outside of strings the grammar has only ASCII: the strings are "well-formed UTF-8" exactly if the whole text is.
    let text = std::str::from_utf8(text).map_err(|_| Fault)?;
    let mut reader = Reader {
        rest: text.as_bytes(),
        depth: 0,
    };
    let value = read(&mut reader)?;
    if reader.rest.is_empty() { Ok(value) } else { Err(Fault) }
}

/// A string as it stands between its quotation marks. Only `\"` and `\\` are escapes and both are always made, so two
/// strings are equal exactly if their raw bytes are.
#[derive(Clone, Copy, Debug)]
pub struct Text<'a> {
    raw: &'a [u8],
    escapes: usize,
}

impl<'a> Text<'a> {
    /// The bytes with the escapes still on, to be compared with what needs none.
    pub fn raw(self) -> &'a [u8] {
        self.raw
    }

    /// How many bytes there are after the escapes are undone.
    pub fn length(self) -> usize {
        self.raw.len() - self.escapes
    }

    /// The bytes after the escapes are undone.
    pub fn bytes(self) -> impl Iterator<Item = u8> + 'a {
        let mut raw = self.raw.iter();
        std::iter::from_fn(move || match raw.next() {
            Some(b'\\') => raw.next().copied(),
            byte => byte.copied(),
        })
    }

    /// Whether these are its bytes after the escapes are undone.
    pub fn is(self, bytes: &[u8]) -> bool {
        if self.escapes == 0 {
            self.raw == bytes
        } else {
            self.bytes().eq(bytes.iter().copied())
        }
    }

    /// How it stands to these bytes, in the order of names.
    pub fn order_to(self, bytes: &[u8]) -> Ordering {
        if self.escapes == 0 {
            self.raw.cmp(bytes)
        } else {
            self.bytes().cmp(bytes.iter().copied())
        }
    }

    /// "compared byte by byte after the escapes are undone, a shorter prefix first"
    fn is_less_than(self, other: Text) -> bool {
        if self.escapes == 0 && other.escapes == 0 {
            self.raw < other.raw
        } else {
            self.bytes().lt(other.bytes())
        }
    }
}

/// Reads values one after the other, from the front of what is left.
pub struct Reader<'a> {
    rest: &'a [u8],
    depth: u8,
}

impl<'a> Reader<'a> {
    /// What is still to be read.
    pub fn rest(&self) -> &'a [u8] {
        self.rest
    }

    /// What was read since this was still to be read.
    pub fn since(&self, rest: &'a [u8]) -> &'a [u8] {
        &rest[..rest.len() - self.rest.len()]
    }

    /// The byte that comes next. It tells what kind of value begins there.
    pub fn next_byte(&self) -> Option<u8> {
        self.rest.first().copied()
    }

    /// Passes over any value.
    pub fn skip(&mut self) -> Result<()> {
        match self.next_byte() {
            Some(b'"') => self.string().map(drop),
            Some(b'{') => self.object(|reader, _| reader.skip()),
            Some(b'[') => self.array(Reader::skip),
            Some(b'-' | b'0'..=b'9') => self.number().map(drop),
            Some(b't' | b'f') => self.truth().map(drop),
            Some(b'n') => self.null(),
            _ => Err(Fault),
        }
    }

    /// An object. Gives each name to `member`, which has to read the value.
    pub fn object(&mut self, mut member: impl FnMut(&mut Self, Text<'a>) -> Result<()>) -> Result<()> {
        self.open(b"{")?;
        if !self.takes(b"}") {
            let mut name = self.name()?;
            member(self, name)?;
            while self.takes(b",") {
                let next = self.name()?;
                // "Member names rise strictly"
                if !name.is_less_than(next) {
                    return Err(Fault);
                }
                member(self, next)?;
                name = next;
            }
            self.expect(b"}")?;
        }
        self.depth -= 1;
        Ok(())
    }

    /// An array. `element` is called where each element begins and has to read it.
    pub fn array(&mut self, mut element: impl FnMut(&mut Self) -> Result<()>) -> Result<()> {
        self.open(b"[")?;
        if !self.takes(b"]") {
            element(self)?;
            while self.takes(b",") {
                element(self)?;
            }
            self.expect(b"]")?;
        }
        self.depth -= 1;
        Ok(())
    }

    /// A string.
    pub fn string(&mut self) -> Result<Text<'a>> {
        self.expect(b"\"")?;
        let (mut length, mut escapes) = (0, 0);
        loop {
            length += plain(&self.rest[length..]);
            match &self.rest[length..] {
                [b'"', rest @ ..] => {
                    let raw = &self.rest[..length];
                    self.rest = rest;
                    return Ok(Text { raw, escapes });
                }
                [b'\\', b'"' | b'\\', ..] => {
                    length += 2;
                    escapes += 1;
                }
                _ => return Err(Fault),
            }
        }
    }

    /// A whole number in the range.
    pub fn number_in(&mut self, range: RangeInclusive<u64>) -> Result<u64> {
        number_in(self.number()?, range).ok_or(Fault)
    }

    /// `true` or `false`.
    pub fn truth(&mut self) -> Result<bool> {
        let is_true = self.takes(b"true");
        if !is_true {
            self.expect(b"false")?;
        }
        Ok(is_true)
    }

    /// `null`
    pub fn null(&mut self) -> Result<()> {
        self.expect(b"null")
    }

    /// "0, or an optional minus and digits that do not begin with 0", as written.
    pub fn number(&mut self) -> Result<&'a [u8]> {
        let sign = usize::from(self.rest.starts_with(b"-"));
        let digits = self.rest[sign..]
            .iter()
            .take_while(|byte| byte.is_ascii_digit())
            .count();
        let (number, rest) = self.rest.split_at(sign + digits);
        match number {
            [] | [b'-'] | [b'-', b'0', ..] | [b'0', _, ..] => Err(Fault),
            _ => {
                self.rest = rest;
                Ok(number)
            }
        }
    }

    /// A member's name and the colon behind it.
    fn name(&mut self) -> Result<Text<'a>> {
        let name = self.string()?;
        self.expect(b":")?;
        Ok(name)
    }

    /// An opening bracket: one level more.
    fn open(&mut self, bracket: &[u8]) -> Result<()> {
        self.expect(bracket)?;
        self.depth += 1;
        if self.depth <= MAX_DEPTH { Ok(()) } else { Err(Fault) }
    }

    fn expect(&mut self, word: &[u8]) -> Result<()> {
        if self.takes(word) { Ok(()) } else { Err(Fault) }
    }

    /// Passes over the word if it comes next.
    fn takes(&mut self, word: &[u8]) -> bool {
        match self.rest.strip_prefix(word) {
            Some(rest) => {
                self.rest = rest;
                true
            }
            None => false,
        }
    }
}

/// The number that is written so, if it is in the range.
pub fn number_in(written: &[u8], range: RangeInclusive<u64>) -> Option<u64> {
    let number = written.iter().try_fold(0u64, |number, digit| {
        let value = digit.wrapping_sub(b'0');
        // A minus is no digit.
        if value > 9 {
            return None;
        }
        number.checked_mul(10)?.checked_add(u64::from(value))
    });
    number.filter(|number| range.contains(number))
}

/// How many bytes from the front stand for themselves.
fn plain(bytes: &[u8]) -> usize {
    let is_special = |byte: &u8| IS_SPECIAL[usize::from(*byte)];
    bytes.iter().position(is_special).unwrap_or(bytes.len())
}

/// The bytes that do not stand for themselves in a string: quotation mark, backslash, and those "below 32".
static IS_SPECIAL: [bool; 256] = {
    let mut is_special = [false; 256];
    let mut byte = 0;
    while byte < 32 {
        is_special[byte] = true;
        byte += 1;
    }
    is_special[b'"' as usize] = true;
    is_special[b'\\' as usize] = true;
    is_special
};
