//! Member names that test the order, and ways to get the order wrong.

use std::collections::BTreeSet;

use super::texts::string;
use crate::random::Random;

/// Names that stand close together: prefixes, and characters next to the two that are escaped.
const TELLING: &[&str] = &[
    "",
    " ",
    "!",
    "\"",
    "#",
    "[",
    "\\",
    "]",
    "a",
    "a!",
    "a\"",
    "a#",
    "a[",
    "a\\",
    "a]",
    "a\"b",
    "a\\b",
    "aa",
    "ab",
    "A",
    "b",
    "\"\"",
    "\"\\",
    "\\\"",
    "\\\\",
    "\u{7f}",
    "\u{80}",
    "a\u{80}",
    "\u{7ff}",
    "\u{800}",
    "\u{d7ff}",
    "\u{e000}",
    "\u{ffff}",
    "\u{10000}",
    "\u{10ffff}",
    "signatures",
    "signed",
    "signe",
    "_type",
];

/// Up to `most` different names in rising order. Rust compares strings byte by byte, a shorter prefix first.
pub fn rising(random: &mut Random, most: usize) -> Vec<String> {
    let names: BTreeSet<String> = (0..most).map(|_| name(random)).collect();
    names.into_iter().collect()
}

fn name(random: &mut Random) -> String {
    if random.one_in(4) {
        return string(random, 3);
    }
    let mut name = random.pick(TELLING).to_string();
    if random.one_in(8) {
        name.push_str(random.pick(TELLING));
    }
    name
}

/// Puts names into an order that some mistaken comparison takes for rising, or repeats one. By chance the order may be
/// right all the same.
pub fn misplace(random: &mut Random, names: &mut Vec<String>) {
    match random.below(8) {
        0 => random.shuffle(names),
        1 => names.reverse(),
        2 => names.sort_by_key(|name| escaped(name)),
        3 => names.sort_by_key(|name| escaped(name) + "\""),
        4 => names.sort_by_key(|name| name.encode_utf16().collect::<Vec<_>>()),
        5 => names.sort_by_key(|name| (name.len(), name.clone())),
        6 => names.sort_by_key(|name| name.to_ascii_lowercase()),
        _ => repeat_one(random, names),
    }
}

fn repeat_one(random: &mut Random, names: &mut Vec<String>) {
    if !names.is_empty() {
        let place = random.below(names.len());
        names.insert(place, names[place].clone());
    }
}

/// What stands between the quotation marks.
pub fn escaped(string: &str) -> String {
    string.replace('\\', "\\\\").replace('"', "\\\"")
}

/// Every name of up to two characters from a small alphabet about the two escaped characters.
pub fn short() -> Vec<String> {
    const ALPHABET: &[char] = &[
        ' ',
        '!',
        '"',
        '#',
        '[',
        '\\',
        ']',
        'a',
        '\u{7f}',
        '\u{80}',
        '\u{ffff}',
        '\u{10000}',
    ];
    let mut names = vec![String::new()];
    for first in ALPHABET {
        names.push(first.to_string());
        for second in ALPHABET {
            names.push(String::from_iter([first, second]));
        }
    }
    names
}
