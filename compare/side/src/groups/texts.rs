//! Makes texts that are canonical by the way they are made, and some that break only the order of names or the depth.

use super::names;
use crate::random::Random;

/// Characters at the edges: of the UTF-8 lengths and of the ranges of second bytes, about the surrogates, next to the
/// escaped ones, and those that mean something outside of a string.
const TELLING: &[char] = &[
    ' ',
    '!',
    '"',
    '#',
    ',',
    '/',
    '0',
    ':',
    'A',
    '[',
    '\\',
    ']',
    'a',
    'n',
    'u',
    '{',
    '}',
    '\u{7f}',
    '\u{80}',
    '\u{9f}',
    '\u{7ff}',
    '\u{800}',
    '\u{fff}',
    '\u{1000}',
    '\u{cfff}',
    '\u{d000}',
    '\u{d7ff}',
    '\u{e000}',
    '\u{feff}',
    '\u{fffd}',
    '\u{fffe}',
    '\u{ffff}',
    '\u{10000}',
    '\u{3ffff}',
    '\u{40000}',
    '\u{fffff}',
    '\u{100000}',
    '\u{10ffff}',
];

/// Numbers at the edges of the usual types.
const TELLING_NUMBERS: &[&str] = &[
    "0",
    "1",
    "-1",
    "9",
    "10",
    "-10",
    "100",
    "127",
    "-128",
    "255",
    "256",
    "65535",
    "65536",
    "2147483647",
    "2147483648",
    "-2147483648",
    "-2147483649",
    "4294967295",
    "4294967296",
    "9007199254740991",
    "9007199254740992",
    "9007199254740993",
    "-9007199254740991",
    "-9007199254740992",
    "9223372036854775807",
    "9223372036854775808",
    "-9223372036854775808",
    "-9223372036854775809",
    "18446744073709551615",
    "18446744073709551616",
];

/// A canonical text of any shape, not deeper than 8.
pub fn sound(random: &mut Random) -> Vec<u8> {
    let mut maker = Maker::new(random);
    match maker.random.below(4) {
        0 => maker.spine(8),
        1 => {
            let levels = maker.random.between(1, 7);
            maker.spine(levels);
        }
        _ => maker.value(4),
    }
    maker.text
}

/// A canonical text that is at most 4 levels deep.
pub fn shallow(random: &mut Random) -> Vec<u8> {
    let mut maker = Maker::new(random);
    maker.value(4);
    maker.text
}

/// A text that is canonical but for its depth, 9.
pub fn too_deep(random: &mut Random) -> Vec<u8> {
    let mut maker = Maker::new(random);
    maker.spine(9);
    maker.text
}

/// A text that is canonical but for the order of its names, and sometimes even in that.
pub fn misordered(random: &mut Random) -> Vec<u8> {
    let mut maker = Maker::new(random);
    maker.misplaces = true;
    let levels = maker.random.between(1, 3);
    maker.spine(levels);
    maker.text
}

/// A string of up to `most` characters, telling ones and any others, none below 32.
pub fn string(random: &mut Random, most: usize) -> String {
    (0..random.below(most + 1)).map(|_| character(random)).collect()
}

fn character(random: &mut Random) -> char {
    match random.below(4) {
        0 => char::from(random.between(32, 127) as u8),
        1 => any_character(random),
        _ => random.pick(TELLING),
    }
}

/// Any character from 32 on, the short encodings as often as the long ones.
fn any_character(random: &mut Random) -> char {
    let highest = random.pick(&[0x7f, 0x7ff, 0xffff, 0x10ffff]);
    // Between the surrogates there is no character.
    char::from_u32(random.between(32, highest) as u32).unwrap_or('\u{fffd}')
}

/// Writes one text.
struct Maker<'r> {
    random: &'r mut Random,
    text: Vec<u8>,
    misplaces: bool,
}

impl<'r> Maker<'r> {
    fn new(random: &'r mut Random) -> Maker<'r> {
        Maker {
            random,
            text: Vec::new(),
            misplaces: false,
        }
    }

    /// Any value that is at most `room` levels deep.
    fn value(&mut self, room: usize) {
        if room == 0 || self.random.one_in(2) {
            return self.scalar();
        }
        let count = self.random.below(4);
        self.container(count, |maker, _| maker.value(room - 1));
    }

    /// A value that is exactly so many levels deep.
    fn spine(&mut self, levels: usize) {
        if levels == 0 {
            return self.scalar();
        }
        // The innermost level may be empty.
        let least = usize::from(levels > 1);
        let count = self.random.between(least, 3);
        let deep_one = self.random.below(count.max(1));
        self.container(count, |maker, place| {
            if place == deep_one {
                maker.spine(levels - 1);
            } else {
                maker.value(usize::from(levels > 1));
            }
        });
    }

    fn container(&mut self, count: usize, child: impl Fn(&mut Self, usize)) {
        if self.random.one_in(2) {
            self.array(count, child);
        } else {
            self.object(count, child);
        }
    }

    fn array(&mut self, count: usize, child: impl Fn(&mut Self, usize)) {
        self.text.push(b'[');
        for place in 0..count {
            self.comma(place);
            child(self, place);
        }
        self.text.push(b']');
    }

    fn object(&mut self, count: usize, child: impl Fn(&mut Self, usize)) {
        self.text.push(b'{');
        for (place, name) in self.names(count).iter().enumerate() {
            self.comma(place);
            self.quoted(name);
            self.text.push(b':');
            child(self, place);
        }
        self.text.push(b'}');
    }

    /// Exactly `count` names, or one more where a name is to be repeated.
    fn names(&mut self, count: usize) -> Vec<String> {
        let mut names = Vec::new();
        while names.len() != count {
            names = names::rising(self.random, count);
        }
        if self.misplaces {
            names::misplace(self.random, &mut names);
        }
        names
    }

    fn comma(&mut self, place: usize) {
        if place > 0 {
            self.text.push(b',');
        }
    }

    fn scalar(&mut self) {
        match self.random.below(6) {
            0 => self.text.extend_from_slice(b"true"),
            1 => self.text.extend_from_slice(b"false"),
            2 => self.text.extend_from_slice(b"null"),
            3 => self.number(),
            _ => {
                let string = string(self.random, 4);
                self.quoted(&string);
            }
        }
    }

    fn number(&mut self) {
        if self.random.one_in(2) {
            let number = self.random.pick(TELLING_NUMBERS);
            return self.text.extend_from_slice(number.as_bytes());
        }
        if self.random.one_in(2) {
            self.text.push(b'-');
        }
        self.text.push(self.random.between(49, 57) as u8);
        for _ in 0..self.random.below(25) {
            self.text.push(self.random.between(48, 57) as u8);
        }
    }

    fn quoted(&mut self, string: &str) {
        self.text.push(b'"');
        self.text.extend_from_slice(names::escaped(string).as_bytes());
        self.text.push(b'"');
    }
}
