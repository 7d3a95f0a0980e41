//! Makes another call of a call: its file edited by bytes or tokens, its rows, digests, keyids, paths, places and clocks
//! changed. The keys of an edited root often get their true keyids again: without them few edited roots would be read further.

use std::collections::BTreeMap;

use paper::hex;
use paper::script::Call;
use side::groups::damage;
use side::random::Random;
use side::shelf::keyids::{mended, renamed, true_keyids};
use side::shelf::tree::{Tree, text};

use crate::tokens;

/// No file is made longer than this.
const LONGEST: usize = 100_000;

/// Numbers about the ends of their types and of the limits.
const NUMBERS: &[u64] = &[
    0,
    1,
    2,
    15,
    16,
    17,
    255,
    256,
    65_535,
    65_536,
    i32::MAX as u64,
    1 << 31,
    u32::MAX as u64,
    1 << 32,
    (1 << 53) - 1,
    1 << 53,
    i64::MAX as u64,
    1 << 63,
    u64::MAX,
];

/// The call after one change or several. Files may be mixed with `other`; `start` is the start time in force.
pub fn mutated(call: &Call, other: &[u8], start: i64, random: &mut Random) -> Call {
    let mut call = call.clone();
    for _ in 0..random.pick(&[1, 1, 1, 2, 3]) {
        change(&mut call, other, start, random);
    }
    call
}

fn change(call: &mut Call, other: &[u8], start: i64, random: &mut Random) {
    match call {
        Call::Text(bytes) | Call::Look(bytes) | Call::Sha256(bytes) => change_file(bytes, other, random),
        Call::Date(_) | Call::State => {}
        Call::Entry { file, place } => match random.below(2) {
            0 => change_file(file, other, random),
            _ => *place = number(random),
        },
        Call::Key(keyid) => change_bytes(keyid, random),
        Call::Install { file, row, time } => match random.below(4) {
            0 => change_row(row, random),
            1 => *time = clock(*time, start, random),
            _ => change_root(file, other, random),
        },
        Call::Cycle(time) => *time = clock(*time, start, random),
        Call::Root {
            file,
            held_row,
            own_row,
        } => match random.below(5) {
            0 => change_row(held_row, random),
            1 => change_row(own_row, random),
            2 => std::mem::swap(held_row, own_row),
            _ => change_root(file, other, random),
        },
        Call::Timestamp { file, row } | Call::Snapshot { file, row } | Call::Targets { file, row } => {
            match random.below(3) {
                0 => change_row(row, random),
                _ => change_file(file, other, random),
            }
        }
        Call::Find { file, path } => match random.below(2) {
            0 => change_bytes(path, random),
            _ => change_file(file, other, random),
        },
        Call::Image { found, fetched } => match random.below(4) {
            0 => found.0 = number(random),
            1 => fetched.0 = number(random),
            2 => change_bytes(&mut found.1, random),
            _ => change_bytes(&mut fetched.1, random),
        },
    }
}

/// Edits a root anywhere, or one of its keys. Then its keyids may be mended.
fn change_root(file: &mut Vec<u8>, other: &[u8], random: &mut Random) {
    let edited = if random.one_in(4) {
        edited_key(file, random)
    } else {
        None
    };
    match edited {
        Some(edited) => *file = edited,
        None => change_file(file, other, random),
    }
    if random.one_in(2)
        && let Some(root) = Tree::read(file)
    {
        *file = mended(&root).written();
    }
}

/// The root with another public value in one of its keys, or an unknown member, or with another keyid; `None` if it is none.
fn edited_key(file: &[u8], random: &mut Random) -> Option<Vec<u8>> {
    let mut root = Tree::read(file)?;
    let keyids: Vec<String> = true_keyids(&root).into_keys().collect();
    let keyid = keyids.get(random.below(keyids.len().max(1)))?;
    let other = hex::written(&[random.byte(); 32]);
    let key = root.member(&["signed", "keys", keyid]);
    let has_public = key.get("keyval").is_some_and(|keyval| keyval.get("public").is_some());
    match random.below(3) {
        0 if has_public => *key.member(&["keyval", "public"]) = text(other),
        1 if has_public => key.member(&["keyval"]).insert("~", text(other)),
        _ => root = renamed(&root, &BTreeMap::from([(keyid.clone(), other)])),
    }
    Some(root.written())
}

fn change_file(file: &mut Vec<u8>, other: &[u8], random: &mut Random) {
    match random.below(40) {
        0 => *file = other.to_vec(),
        1 => splice(file, other, random),
        2 => *file = (0..random.below(200)).map(|_| random.byte()).collect(),
        3 => *file = damage::damaged(random),
        4 => pad(file, random),
        5 => file.clear(),
        6..20 => *file = damage::edited(std::mem::take(file), random),
        _ => *file = tokens::edited(file, other, random),
    }
    file.truncate(LONGEST);
}

/// The beginning of one and the end of the other.
fn splice(file: &mut Vec<u8>, other: &[u8], random: &mut Random) {
    file.truncate(random.below(file.len() + 1));
    file.extend_from_slice(&other[random.below(other.len() + 1)..]);
}

/// Makes the file as long as may be, or about that, by digits of its last number or by white space behind it.
fn pad(file: &mut Vec<u8>, random: &mut Random) {
    let length = random.between(32_766, 32_771);
    let filling = length.saturating_sub(file.len());
    match file.iter().rposition(u8::is_ascii_digit) {
        Some(place) if random.one_in(2) => drop(file.splice(place..place, vec![b'7'; filling])),
        _ => file.extend(vec![b' '; filling]),
    }
}

fn change_row(row: &mut Vec<u8>, random: &mut Random) {
    match random.below(7) {
        0 => row.push(random.below(2) as u8),
        1 => drop(row.pop()),
        2 => row.clear(),
        3 => *row = (0..random.below(40)).map(|_| random.byte()).collect(),
        4 => row.iter_mut().for_each(|verdict| *verdict = 1),
        _ if row.is_empty() => row.push(1),
        5 => {
            let place = random.below(row.len());
            row[place] ^= 1;
        }
        _ => {
            let place = random.below(row.len());
            row[place] = random.byte();
        }
    }
}

/// Changes a keyid, a path or a digest.
fn change_bytes(bytes: &mut Vec<u8>, random: &mut Random) {
    match random.below(8) {
        0 => drop(bytes.pop()),
        1 => bytes.push(random.byte()),
        2 => bytes.clear(),
        3 => *bytes = vec![random.byte(); random.pick(&[1, 31, 32, 33, 63, 64, 65, 127, 128, 129, 5_000])],
        4 => bytes.make_ascii_uppercase(),
        5 => bytes.extend_from_within(..),
        _ if bytes.is_empty() => bytes.push(0),
        _ => {
            let place = random.below(bytes.len());
            bytes[place] ^= 1 << random.below(8);
        }
    }
    bytes.truncate(LONGEST);
}

fn number(random: &mut Random) -> u64 {
    random.pick(NUMBERS)
}

/// A clock a little before or after, or anywhere; as often about the start time in force, from which on a cycle passes (A8).
fn clock(time: i64, start: i64, random: &mut Random) -> i64 {
    match random.below(8) {
        0 => time.wrapping_add(1),
        1 => time.wrapping_sub(1),
        2 => number(random) as i64,
        3 => time.wrapping_neg(),
        // Some with the same low 32 bits.
        _ => start.wrapping_add(random.pick(&[-(1 << 32), -1, -1, 0, 0, 1, 1 << 32])),
    }
}

#[cfg(test)]
mod tests {
    use super::{LONGEST, change_root, mutated};
    use crate::memory::ROOM;
    use paper::forms;
    use paper::refusal::Refusal;
    use paper::script::Call;
    use side::random::Random;
    use side::shelf::files::{self, Root};

    #[test]
    fn most_mutated_calls_are_others_and_all_can_be_lent() {
        const { assert!(LONGEST <= ROOM) };
        let mut random = Random::new(1, "mutation");
        let row = vec![1];
        let file = br#"{"signatures":[],"signed":{"version":1}}"#.to_vec();
        for call in [
            Call::Look(file.clone()),
            Call::Entry {
                file: file.clone(),
                place: 0,
            },
            Call::Key(vec![b'a'; 64]),
            Call::Cycle(5),
            Call::Install {
                file: file.clone(),
                row: row.clone(),
                time: 5,
            },
            Call::Root {
                file: file.clone(),
                held_row: vec![0],
                own_row: row.clone(),
            },
            Call::Targets {
                file: file.clone(),
                row,
            },
            Call::Sha256(file.clone()),
            Call::Image {
                found: (3, vec![9; 32]),
                fetched: (4, vec![9; 32]),
            },
        ] {
            let others = (0..200)
                .filter(|_| mutated(&call, &file, 5, &mut random) != call)
                .count();
            assert!(others > 120, "{others}: {call:?}");
        }
    }

    #[test]
    fn every_argument_is_changed_now_and_then() {
        let mut random = Random::new(1, "mutation");
        let call = Call::Root {
            file: b"{}".to_vec(),
            held_row: vec![1],
            own_row: vec![0],
        };
        let mut changed = [false; 3];
        for _ in 0..200 {
            let Call::Root {
                file,
                held_row,
                own_row,
            } = mutated(&call, b"[]", 0, &mut random)
            else {
                panic!("another call")
            };
            changed[0] |= file != b"{}";
            changed[1] |= held_row != [1];
            changed[2] |= own_row != [0];
        }
        assert_eq!(changed, [true; 3]);
    }

    /// A8: "A new cycle with an earlier one is refused", "an equal one passes".
    #[test]
    fn clocks_are_earlier_equal_and_later() {
        let mut random = Random::new(1, "mutation");
        for (time, start) in [(1_700_000_000, 1_700_000_500), (-7, -7), (3, i64::MIN), (3, i64::MAX)] {
            let mut clocks = Vec::new();
            for _ in 0..1_000 {
                let Call::Cycle(clock) = mutated(&Call::Cycle(time), b"[]", start, &mut random) else {
                    panic!("another call")
                };
                clocks.push(clock);
            }
            let count = |holds: fn(&i64, &i64) -> bool| clocks.iter().filter(|clock| holds(clock, &start)).count();
            let (earlier, equal, later) = (count(i64::lt), count(i64::eq), count(i64::gt));
            assert!(earlier > 100 || start == i64::MIN, "{earlier} before {start}");
            assert!(later > 100 || start == i64::MAX, "{later} after {start}");
            assert!(equal > 50, "{equal} at {start}");
            let ends = [i64::MIN, i64::MAX, start.wrapping_sub(1), start.wrapping_add(1)];
            assert!(ends.iter().all(|end| clocks.contains(end)), "{start}");
        }
    }

    /// How many of so many edited roots are refused with 16, and how many are accepted though a key is another.
    #[test]
    fn edited_keys_are_mended_now_and_then() {
        let mut random = Random::new(1, "mutation");
        let root = Root::new(1, 0);
        let file = files::file(root.signed(), &[1]).written();
        let keyids: Vec<_> = forms::root(&file).unwrap().says.keys.into_keys().collect();
        let (mut refused, mut accepted) = (0, 0);
        for _ in 0..1_000 {
            let mut edited = file.clone();
            change_root(&mut edited, b"[]", &mut random);
            match forms::root(&edited) {
                Err(Refusal::OtherKeyid) => refused += 1,
                Ok(root) if !root.says.keys.keys().eq(&keyids) => accepted += 1,
                _ => {}
            }
        }
        assert!(refused > 50 && accepted > 50, "{refused} and {accepted}");
    }
}
