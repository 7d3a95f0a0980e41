//! `text BYTES`: is it a file's length, and is it canonical?

use super::{all_of, damage, names, texts};
use crate::calls::Call;
use crate::compare::{Case, Cases, Group};
use crate::random::Random;

/// How many texts are generated; every other one is damaged.
const GENERATED: usize = 400_000;

/// The groups of this call.
pub fn groups() -> Vec<Group> {
    vec![
        Group {
            name: "text, by name",
            calls: &["text"],
            cases: |_| by_name(),
            least: 20,
            shares: &[("text 0", 10), ("text 2", 10)],
            complete: &[],
            renewed: false,
        },
        Group {
            name: "text, generated",
            calls: &["text"],
            cases: generated,
            least: GENERATED,
            shares: &[("text 0", 10), ("text 2", 10)],
            complete: &[],
            renewed: true,
        },
        Group {
            name: "text, exhaustive",
            calls: &["text"],
            cases: |_| exhaustive(),
            least: 3 * (1 + 24 + 24 * 24 + 24 * 24 * 24),
            shares: &[("text 0", 1), ("text 2", 10)],
            complete: &[],
            renewed: false,
        },
        Group {
            name: "text, pairs of names",
            calls: &["text"],
            cases: |_| pairs_of_names(),
            least: 24_000,
            shares: &[("text 0", 10), ("text 2", 10)],
            complete: &[],
            renewed: false,
        },
        Group {
            name: "text, UTF-8",
            calls: &["text"],
            cases: |_| utf8(),
            least: 200_000,
            shares: &[("text 0", 1), ("text 2", 10)],
            complete: &[],
            renewed: false,
        },
        Group {
            name: "text, limits",
            calls: &["text"],
            cases: |_| limits(),
            least: 60,
            shares: &[("text 0", 10), ("text 1", 10), ("text 2", 10)],
            complete: &[],
            renewed: false,
        },
    ]
}

fn open(bytes: impl Into<Vec<u8>>) -> Case {
    Case::open(Call::Text(bytes.into()))
}

fn stated(bytes: impl Into<Vec<u8>>, number: usize) -> Case {
    Case::stated(Call::Text(bytes.into()), format!("text {number}"))
}

/// The texts that document 01 speaks of.
fn by_name() -> Cases {
    let sound = [
        r#"{"a":1,"a!":2}"#,
        r#"{"signatures":[],"signed":{}}"#,
        "0",
        "-1",
        "true",
        "false",
        "null",
        "[]",
        r#""\"\\""#,
    ];
    let broken = [
        r#"{"a":1,"a":2}"#,
        r#"{"a!":1,"a":2}"#,
        "[-0]",
        "[01]",
        "[1,]",
        "",
        "\u{feff}",
        "\u{feff}[]",
        "[ ]",
        "[]\n",
        "[1.0]",
        "[1e0]",
        r#""\/""#,
        "\"\u{1f}\"",
    ];
    let sound = sound.iter().map(|text| stated(*text, 0));
    all_of(sound.chain(broken.iter().map(|text| stated(*text, 2))).collect())
}

/// By turns a text that is canonical by the way it is made, and one that was damaged.
fn generated(seed: u64) -> Cases {
    let mut random = Random::new(seed, "text, generated");
    Box::new((0..GENERATED).map(move |number| match number % 2 {
        0 => stated(texts::sound(&mut random), 0),
        _ => open(damage::damaged(&mut random)),
    }))
}

/// Every string of up to three of the most telling bytes: bare, in quotation marks and in brackets.
fn exhaustive() -> Cases {
    const ALPHABET: &[u8; 24] = b"\x00\n\x1f \"+,-.019:[\\]en{}\x7f\x80\xc2\xef";
    let strings = (0..=3).flat_map(|length| sequences(ALPHABET, length));
    let wrapped = |string: Vec<u8>| [open(quoted(&string)), open(in_brackets(&string)), open(string)];
    Box::new(strings.flat_map(wrapped))
}

fn quoted(bytes: &[u8]) -> Vec<u8> {
    [b"\"", bytes, b"\""].concat()
}

fn in_brackets(bytes: &[u8]) -> Vec<u8> {
    [b"[", bytes, b"]"].concat()
}

/// Objects of every two short names: canonical exactly if the second is greater.
fn pairs_of_names() -> Cases {
    let names = names::short();
    let pairs = names.clone().into_iter().flat_map(move |first| {
        let pair = move |second: &String| pair_of_names(&first, second);
        names.iter().map(pair).collect::<Vec<_>>()
    });
    Box::new(pairs)
}

fn pair_of_names(first: &str, second: &str) -> Case {
    let text = format!(r#"{{"{}":0,"{}":0}}"#, names::escaped(first), names::escaped(second));
    stated(text, if first < second { 0 } else { 2 })
}

/// Sequences of bytes that look like characters, each in quotation marks.
fn utf8() -> Cases {
    const EDGES: &[u8] = &[
        0x00, 0x1f, 0x20, 0x22, 0x5c, 0x7f, 0x80, 0x81, 0x8f, 0x90, 0x9f, 0xa0, 0xbe, 0xbf, 0xc0, 0xc2, 0xff,
    ];
    let every = || 0..=255u8;
    let ones = every().map(|byte| vec![byte]);
    let twos = every().flat_map(move |lead| every().map(move |second| vec![lead, second]));
    let threes = (0xe0..=0xf7u8).flat_map(move |lead| {
        every().flat_map(move |second| EDGES.iter().map(move |&third| vec![lead, second, third]))
    });
    let fours =
        (0xf0..=0xf7u8).flat_map(move |lead| sequences(EDGES, 3).into_iter().map(move |tail| with_lead(lead, &tail)));
    let longer = (0xf8..=0xffu8).flat_map(|lead| [4, 5].map(move |length| with_lead(lead, &vec![0x80; length])));
    Box::new(
        ones.chain(twos)
            .chain(threes)
            .chain(fours)
            .chain(longer)
            .map(|bytes| open(quoted(&bytes))),
    )
}

fn with_lead(lead: u8, tail: &[u8]) -> Vec<u8> {
    [&[lead], tail].concat()
}

/// Every sequence of so many of the bytes.
fn sequences(bytes: &[u8], length: usize) -> Vec<Vec<u8>> {
    if length == 0 {
        return vec![Vec::new()];
    }
    let shorter = sequences(bytes, length - 1);
    bytes
        .iter()
        .flat_map(|&byte| shorter.iter().map(move |tail| with_lead(byte, tail)))
        .collect()
}

/// Lengths about the limit of a file, depths about the limit of nesting, long numbers.
fn limits() -> Cases {
    let mut cases = Vec::new();
    for length in [32_766, 32_767, 32_768, 32_769, 32_770, 65_536, 140_000] {
        add_long_texts(length, &mut cases);
    }
    for depth in [1, 2, 7, 8, 9, 10, 16, 17, 255, 256, 257, 16_384] {
        add_nested(depth, &mut cases);
    }
    for length in [1, 2, 9, 10, 11, 19, 20, 21, 39, 40, 100, 1_000, 32_000] {
        cases.push(stated("9".repeat(length), 0));
        cases.push(stated(format!("[-{}]", "1".repeat(length)), 0));
        cases.push(stated(format!("[0{}]", "1".repeat(length)), 2));
        cases.push(stated(format!("[{}.0]", "1".repeat(length)), 2));
    }
    all_of(cases)
}

/// Texts of exactly so many bytes, sound but for the length and broken.
fn add_long_texts(length: usize, cases: &mut Vec<Case>) {
    let (sound, broken) = if length > 32_768 { (1, 1) } else { (0, 2) };
    let mut add = |text: Vec<u8>, number| {
        assert_eq!(text.len(), length);
        cases.push(stated(text, number));
    };
    for filling in ["x", "\u{7ff}", "\u{ffff}", "\u{10ffff}", "\\\\", "\\\""] {
        add(long_string(filling, length), sound);
    }
    add(vec![b'7'; length], sound);
    add(array_of_numbers(length), sound);
    add(object_of_names(length), sound);
    for tail in [b" ", b"\n", b"\0"] {
        add([long_string("x", length - 1), tail.to_vec()].concat(), broken);
    }
    for filling in ["x", "\u{10ffff}"] {
        add(long_string(filling, length + 1)[..length].to_vec(), broken);
    }
    for byte in [b'0', b'[', b'"', 0x00, 0xff] {
        add(vec![byte; length], broken);
    }
}

/// A string of one character over and over.
fn long_string(filling: &str, length: usize) -> Vec<u8> {
    let count = (length - 2) / filling.len();
    let rest = (length - 2) % filling.len();
    format!("\"{}{}\"", "x".repeat(rest), filling.repeat(count)).into_bytes()
}

/// `[1,0,0,...,0]`, or `[10,0,0,...,0]` where the length is even.
fn array_of_numbers(length: usize) -> Vec<u8> {
    let first = if length.is_multiple_of(2) { "10" } else { "1" };
    let zeros = ",0".repeat((length - "[]".len() - first.len()) / 2);
    format!("[{first}{zeros}]").into_bytes()
}

/// An object with as many members as the length has room for.
fn object_of_names(length: usize) -> Vec<u8> {
    const MEMBER: usize = r#""00000":0,"#.len();
    let count = length / MEMBER - 2;
    let members: String = (0..count).map(|number| format!(r#""{number:05}":0,"#)).collect();
    let rest = length - members.len() - r#"{"x":0}"#.len();
    format!(r#"{{{members}"x{}":0}}"#, "x".repeat(rest)).into_bytes()
}

/// Arrays, objects and both, so many levels deep, and with one bracket missing.
fn add_nested(depth: usize, cases: &mut Vec<Case>) {
    let number = if depth <= 8 { 0 } else { 2 };
    let array = ("[", "]");
    let object = (r#"{"":"#, "}");
    let by_turns = |one, other| {
        (0..depth)
            .map(|level| if level % 2 == 0 { one } else { other })
            .collect::<Vec<_>>()
    };
    for levels in [
        vec![array; depth],
        vec![object; depth],
        by_turns(array, object),
        by_turns(object, array),
    ] {
        let text = nested(&levels, "0");
        if text.len() > 32_768 {
            continue;
        }
        cases.push(stated(&text[..text.len() - 1], 2));
        cases.push(stated(format!("[{text}"), 2));
        cases.push(stated(text, number));
        cases.push(stated(nested(&levels[1..], "[]"), number));
        cases.push(stated(nested(&levels[1..], "{}"), number));
        cases.push(stated(
            nested(&levels[1..], r#"[0,[],{}]"#),
            if depth < 8 { 0 } else { 2 },
        ));
    }
}

fn nested(levels: &[(&str, &str)], innermost: &str) -> String {
    let opening: String = levels.iter().map(|level| level.0).collect();
    let closing: String = levels.iter().rev().map(|level| level.1).collect();
    opening + innermost + &closing
}
