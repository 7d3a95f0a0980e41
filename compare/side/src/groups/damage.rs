//! Damages a text by one edit. Now and then the damaged text is canonical again.

// All edits are of one type, also those that leave the length as it is.
#![allow(clippy::ptr_arg)]

use super::texts;
use crate::random::Random;

/// One edit.
type Edit = fn(&mut Vec<u8>, &mut Random);

/// Every kind of edit; each is as likely as the others.
const EDITS: &[Edit] = &[
    flip_bit,
    replace_byte,
    insert_byte,
    insert_telling,
    delete_byte,
    double_byte,
    swap_neighbours,
    swap_any,
    truncate,
    cut_front,
    insert_broken_utf8,
    break_character,
    put_mark_first,
    insert_white_space,
    insert_comma,
    append,
    spoil_number,
    spoil_digit,
    insert_escape,
    insert_control,
    double_piece,
    change_bracket,
    change_case,
];

/// Bytes that mean something somewhere.
const TELLING: &[u8] = b"{}[]\"\\:,-+.0159eEtfn /!#\x00\x1f\x7f\x80\xbf\xc2\xff";

/// Sequences that RFC 3629 does not allow, or only a part of.
const BROKEN_UTF8: &[&[u8]] = &[
    b"\x80",
    b"\xbf",
    b"\xc0\x80",
    b"\xc0\xaf",
    b"\xc1\xbf",
    b"\xc2",
    b"\xdf",
    b"\xe0\x80\x80",
    b"\xe0\x9f\xbf",
    b"\xe0\xa0",
    b"\xed\xa0\x80",
    b"\xed\xaf\xbf",
    b"\xed\xb0\x80",
    b"\xed\xbf\xbf",
    b"\xed\xa0\x80\xed\xb0\x80",
    b"\xef\xbf",
    b"\xf0\x80\x80\x80",
    b"\xf0\x8f\xbf\xbf",
    b"\xf0\x90\x80",
    b"\xf4\x90\x80\x80",
    b"\xf4\xbf\xbf\xbf",
    b"\xf5\x80\x80\x80",
    b"\xf6\x80\x80\x80",
    b"\xf7\xbf\xbf\xbf",
    b"\xf8\x88\x80\x80\x80",
    b"\xfb\xbf\xbf\xbf\xbf",
    b"\xfc\x84\x80\x80\x80\x80",
    b"\xfd\xbf\xbf\xbf\xbf\xbf",
    b"\xfe",
    b"\xff",
    b"\xc2\x22",
    b"\xe1\x80\xc0",
];

/// A text with one fault, or what was meant to be one.
pub fn damaged(random: &mut Random) -> Vec<u8> {
    match random.below(8) {
        0 => texts::too_deep(random),
        1 => texts::misordered(random),
        _ => {
            let text = texts::sound(random);
            edited(text, random)
        }
    }
}

/// The text after one edit.
pub fn edited(mut text: Vec<u8>, random: &mut Random) -> Vec<u8> {
    random.pick(EDITS)(&mut text, random);
    text
}

/// A place of a byte; `None` if there is none.
fn place(text: &[u8], random: &mut Random) -> Option<usize> {
    (!text.is_empty()).then(|| random.below(text.len()))
}

/// A place of a byte for which the condition holds.
fn place_where(text: &[u8], random: &mut Random, holds: fn(&u8) -> bool) -> Option<usize> {
    let places: Vec<usize> = (0..text.len()).filter(|&place| holds(&text[place])).collect();
    (!places.is_empty()).then(|| random.pick(&places))
}

/// Puts bytes anywhere, the end included.
fn insert(text: &mut Vec<u8>, random: &mut Random, bytes: &[u8]) {
    let place = random.below(text.len() + 1);
    insert_at(text, place, bytes);
}

fn insert_at(text: &mut Vec<u8>, place: usize, bytes: &[u8]) {
    text.splice(place..place, bytes.iter().copied());
}

/// Puts bytes right behind a quotation mark, and so often into a string; anywhere if there is none.
fn insert_in_string(text: &mut Vec<u8>, random: &mut Random, bytes: &[u8]) {
    match place_where(text, random, |&byte| byte == b'"') {
        Some(place) => insert_at(text, place + 1, bytes),
        None => insert(text, random, bytes),
    }
}

fn flip_bit(text: &mut Vec<u8>, random: &mut Random) {
    if let Some(place) = place(text, random) {
        text[place] ^= 1 << random.below(8);
    }
}

fn replace_byte(text: &mut Vec<u8>, random: &mut Random) {
    if let Some(place) = place(text, random) {
        text[place] = random.pick(TELLING);
    }
}

fn insert_byte(text: &mut Vec<u8>, random: &mut Random) {
    let byte = random.byte();
    insert(text, random, &[byte]);
}

fn insert_telling(text: &mut Vec<u8>, random: &mut Random) {
    let byte = random.pick(TELLING);
    insert(text, random, &[byte]);
}

fn delete_byte(text: &mut Vec<u8>, random: &mut Random) {
    if let Some(place) = place(text, random) {
        text.remove(place);
    }
}

fn double_byte(text: &mut Vec<u8>, random: &mut Random) {
    if let Some(place) = place(text, random) {
        text.insert(place, text[place]);
    }
}

fn swap_neighbours(text: &mut Vec<u8>, random: &mut Random) {
    if text.len() > 1 {
        let place = random.below(text.len() - 1);
        text.swap(place, place + 1);
    }
}

fn swap_any(text: &mut Vec<u8>, random: &mut Random) {
    if let (Some(one), Some(other)) = (place(text, random), place(text, random)) {
        text.swap(one, other);
    }
}

fn truncate(text: &mut Vec<u8>, random: &mut Random) {
    if let Some(place) = place(text, random) {
        text.truncate(place);
    }
}

fn cut_front(text: &mut Vec<u8>, random: &mut Random) {
    if let Some(place) = place(text, random) {
        text.drain(..=place);
    }
}

fn insert_broken_utf8(text: &mut Vec<u8>, random: &mut Random) {
    let bytes = random.pick(BROKEN_UTF8);
    if random.one_in(4) {
        insert(text, random, bytes);
    } else {
        insert_in_string(text, random, bytes);
    }
}

/// Changes, takes away or adds a byte of a longer character, if there is one.
fn break_character(text: &mut Vec<u8>, random: &mut Random) {
    if let Some(place) = place_where(text, random, |&byte| byte >= 0x80) {
        match random.below(4) {
            0 => drop(text.remove(place)),
            1 => text.insert(place, text[place]),
            2 => text[place] = random.between(0x80, 0xff) as u8,
            _ => text[place] = random.pick(&[0x7f, 0x80, 0x8f, 0x90, 0x9f, 0xa0, 0xbf, 0xc0]),
        }
    }
}

fn put_mark_first(text: &mut Vec<u8>, _: &mut Random) {
    insert_at(text, 0, b"\xef\xbb\xbf");
}

fn insert_white_space(text: &mut Vec<u8>, random: &mut Random) {
    let byte = random.pick(b" \t\n\r\x0b\x0c");
    match place_where(text, random, |byte| b"{}[]:,".contains(byte)) {
        Some(place) => insert_at(text, place + random.below(2), &[byte]),
        None => insert_at(text, random.below(2) * text.len(), &[byte]),
    }
}

/// Puts a comma or colon next to what separates or closes.
fn insert_comma(text: &mut Vec<u8>, random: &mut Random) {
    if let Some(place) = place_where(text, random, |byte| b"{}[]:,".contains(byte)) {
        let byte = random.pick(b",,:");
        text.insert(place + random.below(2), byte);
    }
}

fn append(text: &mut Vec<u8>, random: &mut Random) {
    let tails: [&[u8]; 10] = [b"\n", b" ", b"\0", b",", b"]", b"}", b"\"", b"0", b"null", b"{}"];
    text.extend_from_slice(random.pick(&tails));
}

/// Puts in front of or behind a digit what no number may have there.
fn spoil_number(text: &mut Vec<u8>, random: &mut Random) {
    let Some(place) = place_where(text, random, u8::is_ascii_digit) else {
        return;
    };
    let before: [&[u8]; 6] = [b"0", b"-0", b"+", b"-", b"00", b"."];
    let after: [&[u8]; 8] = [b".0", b".", b"e1", b"E+1", b"e", b"-", b"x", b".5e-3"];
    if random.one_in(2) {
        insert_at(text, place, random.pick(&before));
    } else {
        insert_at(text, place + 1, random.pick(&after));
    }
}

fn spoil_digit(text: &mut Vec<u8>, random: &mut Random) {
    if let Some(place) = place_where(text, random, u8::is_ascii_digit) {
        text[place] = random.pick(b"/0:-");
    }
}

fn insert_escape(text: &mut Vec<u8>, random: &mut Random) {
    let escapes: [&[u8]; 12] = [
        br"\/", br"\b", br"\f", br"\n", br"\r", br"\t", br"\u0041", br"\u000a", br"\ud800", br"\", br"\\", br#"\""#,
    ];
    let escape = random.pick(&escapes);
    insert_in_string(text, random, escape);
}

fn insert_control(text: &mut Vec<u8>, random: &mut Random) {
    let byte = random.below(33) as u8;
    insert_in_string(text, random, &[byte]);
}

/// Repeats a piece of the text right behind itself.
fn double_piece(text: &mut Vec<u8>, random: &mut Random) {
    if let (Some(one), Some(other)) = (place(text, random), place(text, random)) {
        let piece = text[one.min(other)..=one.max(other)].to_vec();
        insert_at(text, one.max(other) + 1, &piece);
    }
}

fn change_bracket(text: &mut Vec<u8>, random: &mut Random) {
    if let Some(place) = place_where(text, random, |byte| b"{}[]:,\"".contains(byte)) {
        text[place] = random.pick(b"{}[]:,\"'();");
    }
}

fn change_case(text: &mut Vec<u8>, random: &mut Random) {
    if let Some(place) = place_where(text, random, u8::is_ascii_alphabetic) {
        text[place] ^= 0x20;
    }
}
