//! The calls as the driver reads them: one record behind another, numbers with their lowest byte first. A record is the kind
//! of the call, how it is to be made, its arguments, and what paper says: the number, what is given with it, and what is held
//! afterwards. `driver.c` is the other side of this file.

use paper::script::Call;

use crate::answers::{Given, Held, Said};
use crate::source::Move;

/// On a copy of the state that is thrown away.
const ASIDE: u8 = 1;
/// Where no bytes are lent, the pointer is null.
const NULL: u8 = 2;
/// In pages, with one without access right behind the bytes. Neither this nor the next: in blocks of the heap.
const GUARDED_END: u8 = 4;
/// In pages, with one without access right before the bytes.
const GUARDED_START: u8 = 8;

/// The ways of lending bytes, in turn.
const WAYS: [u8; 6] = [
    0,
    GUARDED_END,
    NULL,
    GUARDED_START,
    GUARDED_END | NULL,
    GUARDED_START | NULL,
];

/// Appends the record of a call.
pub fn write(record: &mut Vec<u8>, number: usize, made: &Move, said: &Said, held: &Held) {
    let how = WAYS[number % WAYS.len()] | if made.aside { ASIDE } else { 0 };
    record.extend([kind_of(&made.call), how]);
    write_arguments(record, &made.call);
    record.push(said.number);
    match said.given {
        Given::Nothing => {}
        Given::Image(length, digest, compared) => {
            record.extend(length.to_le_bytes());
            record.extend(digest);
            record.extend(compared.to_le_bytes());
        }
        Given::Public(bytes) | Given::Digest(bytes) => record.extend(bytes),
        Given::Part(start, length, entries) => {
            record.extend([start, length, entries].into_iter().flat_map(u64::to_le_bytes));
        }
        Given::Entry(keyid, sig) => {
            record.extend(keyid);
            record.extend(sig);
        }
    }
    for (is_held, version) in held.versions {
        record.push(is_held);
        record.extend(version.to_le_bytes());
    }
    record.extend(held.start.to_le_bytes());
}

fn kind_of(call: &Call) -> u8 {
    match call {
        Call::Text(_) => b'c',
        Call::Sha256(_) => b'h',
        Call::Look(_) => b'l',
        Call::Entry { .. } => b'e',
        Call::Key(_) => b'k',
        Call::Install { .. } => b'I',
        Call::Cycle(_) => b'C',
        Call::Root { .. } => b'R',
        Call::Timestamp { .. } => b'T',
        Call::Snapshot { .. } => b'S',
        Call::Targets { .. } => b'G',
        Call::Find { .. } => b'f',
        Call::Image { .. } => b'i',
        Call::Date(_) | Call::State => unreachable!("the C interface does not have this call"),
    }
}

fn write_arguments(record: &mut Vec<u8>, call: &Call) {
    match call {
        Call::Text(bytes) | Call::Look(bytes) | Call::Key(bytes) | Call::Sha256(bytes) => write_bytes(record, bytes),
        Call::Entry { file, place } => {
            write_bytes(record, file);
            record.extend(place.to_le_bytes());
        }
        Call::Install { file, row, time } => {
            write_bytes(record, file);
            write_bytes(record, row);
            record.extend(time.to_le_bytes());
        }
        Call::Cycle(time) => record.extend(time.to_le_bytes()),
        Call::Root {
            file,
            held_row,
            own_row,
        } => [file, held_row, own_row]
            .iter()
            .for_each(|bytes| write_bytes(record, bytes)),
        Call::Timestamp { file, row: other }
        | Call::Snapshot { file, row: other }
        | Call::Targets { file, row: other }
        | Call::Find { file, path: other } => {
            write_bytes(record, file);
            write_bytes(record, other);
        }
        Call::Image { found, fetched } => {
            for (length, digest) in [found, fetched] {
                record.extend(length.to_le_bytes());
                write_bytes(record, digest);
            }
        }
        Call::Date(_) | Call::State => {}
    }
}

/// The count of the bytes, and the bytes.
fn write_bytes(record: &mut Vec<u8>, bytes: &[u8]) {
    record.extend((bytes.len() as u64).to_le_bytes());
    record.extend_from_slice(bytes);
}

#[cfg(test)]
mod tests {
    use super::write;
    use crate::answers::{Given, Held, Said, number};
    use crate::source::Move;
    use paper::script::Call;
    use paper::state::State;

    #[test]
    fn a_record() {
        let made = Move {
            call: Call::Timestamp {
                file: b"{}".to_vec(),
                row: Vec::new(),
            },
            aside: true,
        };
        let held = Held {
            start: 258,
            ..Held::of(&State::blank())
        };
        let mut record = Vec::new();
        write(&mut record, 1, &made, &number(3), &held);
        let parts: [&[u8]; 7] = [
            b"T\x05",
            b"\x02\0\0\0\0\0\0\0{}",
            b"\0\0\0\0\0\0\0\0",
            b"\x03",
            &[0; 18],
            &[0; 18],
            b"\x02\x01\0\0\0\0\0\0",
        ];
        assert_eq!(record, parts.concat());
    }

    /// A8: "refused with the new number 17 and changes nothing".
    #[test]
    fn a_refused_cycle() {
        let made = Move {
            call: Call::Cycle(-2),
            aside: false,
        };
        let held = Held {
            start: -1,
            ..Held::of(&State::blank())
        };
        let mut record = Vec::new();
        write(&mut record, 0, &made, &number(17), &held);
        let parts: [&[u8]; 5] = [
            b"C\0",
            b"\xfe\xff\xff\xff\xff\xff\xff\xff",
            b"\x11",
            &[0; 36],
            &[0xff; 8],
        ];
        assert_eq!(record, parts.concat());
    }

    #[test]
    fn what_find_gives() {
        let made = Move {
            call: Call::Find {
                file: Vec::new(),
                path: b"a".to_vec(),
            },
            aside: false,
        };
        let said = Said {
            number: 0,
            given: Given::Image(513, [9; 32], 256),
        };
        let mut record = Vec::new();
        write(&mut record, 0, &made, &said, &Held::of(&State::blank()));
        let given: [&[u8]; 4] = [b"\0", b"\x01\x02\0\0\0\0\0\0", &[9; 32], b"\0\x01\0\0\0\0\0\0"];
        let behind = b"f\0".len() + 8 + 8 + b"a".len();
        assert!(record[behind..].starts_with(&given.concat()));
    }
}
