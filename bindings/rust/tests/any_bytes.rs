//! Any bytes are answered: empty input, damaged files, noise, and states in the middle of an update. Nothing is stated of most answers but
//! what document 01 says of all: a refusal leaves the state, what is refused is zeros, and the calls agree with one another.

use gronwythal::{Refusal, State, Versions, check_image, entry, is_canonical, look, raw, sha256, signed_part};
use std::fs;
use std::path::Path;

fn shelf(name: &str) -> Vec<u8> {
    fs::read(
        Path::new(env!("CARGO_MANIFEST_DIR"))
            .join("../../examples/shelf")
            .join(name),
    )
    .unwrap()
}

/// A small generator (xorshift64*), so that every run tries the same.
struct Noise(u64);

impl Noise {
    fn next(&mut self) -> u64 {
        self.0 ^= self.0 >> 12;
        self.0 ^= self.0 << 25;
        self.0 ^= self.0 >> 27;
        self.0.wrapping_mul(0x2545_f491_4f6c_dd1d)
    }

    fn below(&mut self, n: usize) -> usize {
        (self.next() % n as u64) as usize
    }

    fn bytes(&mut self, most: usize) -> Vec<u8> {
        (0..self.below(most + 1)).map(|_| self.next() as u8).collect()
    }

    /// The file with a byte changed, one left out or put in, or its end cut off.
    fn damaged(&mut self, file: &[u8]) -> Vec<u8> {
        let mut bytes = file.to_vec();
        let at = self.below(bytes.len());
        match self.below(4) {
            0 => bytes[at] = self.next() as u8,
            1 => drop(bytes.remove(at)),
            2 => bytes.insert(at, b"{}[],:\"\\09a"[self.below(11)]),
            _ => bytes.truncate(at),
        }
        bytes
    }
}

/// A state that holds a root and a timestamp.
fn middle() -> State {
    let mut state = State::install(&shelf("root-1.json"), &[1, 1], 1772352000).unwrap();
    state.timestamp(&shelf("timestamp-39.json"), &[1]).unwrap();
    state
}

/// Offers a file to every call, with a row and a path. A refused step leaves the state as it was.
fn offer(state: &State, file: &[u8], row: &[u8], path: &[u8]) {
    let (mut root, mut timestamp, mut snapshot, mut targets) =
        (state.clone(), state.clone(), state.clone(), state.clone());
    let steps = [
        (root.root(file, row, row), root),
        (timestamp.timestamp(file, row), timestamp),
        (snapshot.snapshot(file, row), snapshot),
        (targets.targets(file, row), targets),
    ];
    for (answer, after) in steps {
        assert_ne!(answer, Err(Refusal::EarlierStart)); // which a new cycle alone uses
        if answer.is_err() {
            assert_eq!(after.versions(), state.versions());
        } else {
            assert_ne!(after.versions(), state.versions());
        }
    }
    assert_ne!(State::install(file, row, 0).err(), Some(Refusal::EarlierStart));
    // No state here holds targets, so 6 if none of 1 to 4.
    let (image, compared) = state.find_counted(file, path);
    assert!(matches!(image.unwrap_err().number(), 1..=4 | 6));
    assert_eq!(compared, 0);
    let _ = state.key(path);
    let _ = check_image(1, file, 1, path);
    let _ = sha256(file);
    looked(file);
}

/// What looking in says of any bytes.
fn looked(file: &[u8]) {
    let look = look(file);
    assert_eq!(look == Err(Refusal::TooLong), file.len() > 32768);
    assert_eq!(
        look == Err(Refusal::NotText),
        file.len() <= 32768 && !is_canonical(file)
    );
    match look {
        Ok(look) => {
            let part = signed_part(file).unwrap();
            assert_eq!(part.as_ptr() as usize - file.as_ptr() as usize, look.start);
            assert_eq!(part.len(), look.length);
            assert!(part.starts_with(b"{") && part.ends_with(b"}") && is_canonical(part));
            assert!(look.entries <= 16);
            assert!((0..look.entries).all(|place| entry(file, place).is_ok()));
            assert_eq!(entry(file, look.entries), Err(Refusal::NotListed));
        }
        Err(refusal) => {
            assert!(refusal.number() <= 3);
            assert_eq!(signed_part(file), Err(refusal));
            assert_eq!(entry(file, 0), Err(refusal));
            let look = unsafe { raw::gronwythal_look(file.as_ptr(), file.len()) };
            assert_eq!((look.start, look.length, look.entries), (0, 0, 0));
        }
    }
}

#[test]
fn no_bytes() {
    for mut state in [State::blank(), middle()] {
        assert_eq!(state.root(&[], &[], &[]), Err(Refusal::NotText));
        assert_eq!(state.timestamp(&[], &[]), Err(Refusal::NotText));
        assert_eq!(state.snapshot(&[], &[]), Err(Refusal::NotText));
        assert_eq!(state.targets(&[], &[]), Err(Refusal::NotText));
        assert_eq!(state.find(&[], &[]), Err(Refusal::NotText));
        offer(&state, &[], &[], &[]);
    }
    assert_eq!(State::install(&[], &[], 0).unwrap_err(), Refusal::NotText);
    assert_eq!(State::blank().key(&[]), Err(Refusal::NotHeld));
    assert_eq!(middle().key(&[]), Err(Refusal::NotListed));
    assert_eq!(check_image(0, &[], 0, &[]), Err(Refusal::BadArgument));
    assert_eq!(look(&[]), Err(Refusal::NotText));
    assert_eq!(signed_part(&[]), Err(Refusal::NotText));
    assert_eq!(entry(&[], 0), Err(Refusal::NotText));
    assert!(!is_canonical(&[]));
}

#[test]
fn a_refusal_is_zeros() {
    let (file, path) = (shelf("targets-3.json"), b"gate-firmware.img");
    let image = unsafe {
        let state = raw::gronwythal_blank();
        raw::gronwythal_find(state, file.as_ptr(), file.len(), path.as_ptr(), path.len())
    };
    assert_eq!(
        (image.answer, image.length, image.digest, image.compared),
        (6, 0, [0; 32], 0)
    );
    let key = unsafe { raw::gronwythal_key(raw::gronwythal_blank(), path.as_ptr(), path.len()) };
    assert_eq!((key.answer, key.bytes), (6, [0; 32]));
    let entry = unsafe { raw::gronwythal_entry(file.as_ptr(), file.len(), 1) };
    assert_eq!((entry.answer, entry.keyid, entry.sig), (15, [0; 32], [0; 64]));
}

#[test]
fn noise() {
    let (mut noise, state) = (Noise(1), middle());
    for _ in 0..2000 {
        let (file, row) = (noise.bytes(200), noise.bytes(3));
        offer(&state, &file, &row, &noise.bytes(70));
    }
}

#[test]
fn damaged_files() {
    let names = [
        "root-2.json",
        "timestamp-39.json",
        "timestamp-40.json",
        "snapshot-6.json",
        "targets-2.json",
    ];
    let files = names.map(shelf);
    let (mut noise, state) = (Noise(2), middle());
    let mut canonical = 0;
    for turn in 0..3000 {
        let file = noise.damaged(&files[turn % files.len()]);
        canonical += usize::from(is_canonical(&file));
        let row: &[u8] = if turn % files.len() == 0 { &[1, 1] } else { &[1] };
        offer(&state, &file, row, b"gate-firmware.img");
    }
    // Not all of it stops at the first test.
    assert!((100..2900).contains(&canonical), "{canonical} of 3000 are canonical");
}

#[test]
fn whole_files_at_every_call() {
    let names = [
        "root-1.json",
        "root-2.json",
        "timestamp-39.json",
        "timestamp-41.json",
        "snapshot-6.json",
        "targets-3.json",
    ];
    for state in [State::blank(), middle()] {
        for file in names.map(shelf) {
            for row in [&[1u8, 1][..], &[1], &[0, 1], &[2], &[]] {
                offer(&state, &file, row, b"gate-firmware.img");
            }
        }
    }
}

#[test]
fn lengths_beyond_the_limit() {
    let long = vec![b'['; 1 << 20];
    offer(&middle(), &long, &long, &long);
    for length in [32767, 32768, 32769] {
        looked(&vec![b'0'; length]);
        looked(format!("\"{}\"", "x".repeat(length - 2)).as_bytes());
    }
}

#[test]
fn any_clock() {
    let before = middle().versions();
    for start in [i64::MIN, -1, 0, i64::MAX] {
        let mut state = middle();
        match state.new_cycle(start) {
            Ok(()) => assert_eq!(state.versions(), Versions { start, ..before }),
            Err(_) => assert_eq!(state.versions(), before),
        }
    }
}
