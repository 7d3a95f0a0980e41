//! `key KEYID`: the public value of a held root's key.

use super::{Recorder, all_of};
use crate::calls::Call;
use crate::compare::{Cases, Group};
use crate::shelf::files::{self, Root, keyid, public};

/// The groups of this call.
pub fn groups() -> Vec<Group> {
    vec![Group {
        name: "keys",
        calls: &["key", "install", "root"],
        cases: |_| keys(),
        least: 4_000,
        shares: &[("key 15", 10)],
        complete: &["key"],
        renewed: false,
    }]
}

/// Keys asked of a blank state, of a first root and of a later one; keyids with every byte at every place.
fn keys() -> Cases {
    let mut script = Recorder::default();
    let zeros = "0".repeat(64);
    for asked in askable() {
        script.stated(Call::Key(asked), format!("key 6 {zeros}"));
    }
    let mut first = Root::new(1, 0);
    first.keys = (1..=16).map(|key| (key, key)).collect();
    script.stated(
        Call::Install {
            file: files::file(first.signed(), &[1]).written(),
            row: vec![1],
            time: 0,
        },
        "install 0",
    );
    ask_all(&mut script, |key| (1..=16).contains(&key));

    // The keys 9 to 16 have left the table, 17 to 20 have come.
    let mut second = Root::new(2, 0);
    second.keys = (1..=8).chain(17..=20).map(|key| (key, key)).collect();
    script.stated(
        Call::Root {
            file: files::file(second.signed(), &[1]).written(),
            held_row: vec![1],
            own_row: vec![1],
        },
        "root 0",
    );
    ask_all(&mut script, |key| second.keys.contains_key(&key));
    for asked in askable() {
        script.stated(Call::Key(asked), format!("key 15 {zeros}"));
    }
    all_of(script.take())
}

/// Asks for the keys 0 to 24.
fn ask_all(script: &mut Recorder, is_held: impl Fn(usize) -> bool) {
    for key in 0..25 {
        let answer = match is_held(key) {
            true => format!("key 0 {}", public(key)),
            false => format!("key 15 {}", "0".repeat(64)),
        };
        script.stated(Call::Key(keyid(key).into()), answer);
    }
}

/// What is the keyid of no key: one that is known, with one edit.
fn askable() -> Vec<Vec<u8>> {
    let known = keyid(5).as_bytes().to_vec();
    let mut asked = vec![
        Vec::new(),
        vec![0; 64],
        vec![b'0'; 64],
        vec![b'f'; 64],
        vec![0xff; 64],
        known.to_ascii_uppercase(),
        known[..63].to_vec(),
        known[1..].to_vec(),
        [&known[..], b"0"].concat(),
        [b"0", &known[..]].concat(),
        [b"\"", &known[..], b"\""].concat(),
        [b" ", &known[..]].concat(),
        [&known[..], b"\n"].concat(),
        [&known[..], &known[..]].concat(),
        [&known[..], b"\0"].concat(),
        paper::hex::bytes(keyid(5)).expect("a keyid is hex"),
        public(5).into(),
        vec![b'a'; 100_000],
    ];
    for place in [0, 1, 31, 32, 62, 63] {
        for byte in (0..=255).filter(|byte| *byte != known[place]) {
            let mut edited = known.clone();
            edited[place] = byte;
            asked.push(edited);
        }
    }
    asked.extend((0..known.len()).map(|length| known[..length].to_vec()));
    // Bits that a comparison may forget: every one of the keyid.
    asked.extend((0..8 * known.len()).map(|bit| {
        let mut edited = known.clone();
        edited[bit / 8] ^= 1 << (bit % 8);
        edited
    }));
    asked.retain(|asked| *asked != known);
    asked
}
