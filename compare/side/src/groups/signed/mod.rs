//! A shelf with true signatures: the verdicts are not made up but worked out from the signatures, under the held root's
//! keys and under a new root's own. Every answer is stated, as document 01 has it for what was done to the file.

mod office;

use std::collections::{BTreeMap, BTreeSet};

use super::finds::{found, not_listed, refused};
use super::{Recorder, all_of};
use crate::calls::Call;
use crate::compare::{Cases, Group};
use crate::shelf::files::{Header, Listed, Role, Root, Snapshot, Targets, Timestamp};
use crate::shelf::sha256::{Digest, digest};
use crate::shelf::signer::Signer;
use office::{By, File, Office, by};
use paper::hex;

const NOW: i64 = 1_000_000_000;
const A_WEEK_LATER: i64 = NOW + 7 * 86_400;
const LATER: i64 = 2_000_000_000;

// The keys by number. The attacker's is in no root of the publisher.
const ROOT_A: usize = 1;
const ROOT_B: usize = 2;
const ROOT_C: usize = 3;
const TIMESTAMP_OLD: usize = 4;
const TIMESTAMP_NEW: usize = 5;
const SNAPSHOT: usize = 6;
const TARGETS_A: usize = 7;
const TARGETS_B: usize = 8;
const ATTACKER: usize = 9;
/// Takes the place of the key B.
const ROOT_B_NEW: usize = 10;
const KEYS: std::ops::RangeInclusive<usize> = ROOT_A..=ROOT_B_NEW;

/// What the images are, by path, in the order of the paths.
const IMAGES: &[(&str, &[u8])] = &[
    ("gate.img", b"Opens at sunrise, shuts at sunset."),
    ("gate.img!", b""),
    ("pump \"old\"\\1.img", b"Pumps while the tank is not full."),
    ("yard/light.img", b"Is red while the gate moves."),
];

/// The group.
pub fn groups() -> Vec<Group> {
    vec![Group {
        name: "signed shelf",
        calls: &[
            "look",
            "entry",
            "key",
            "install",
            "cycle",
            "root",
            "timestamp",
            "snapshot",
            "targets",
            "find",
            "image",
        ],
        cases: |seed| shelf(Signer::at_hand(), seed),
        least: 400,
        shares: &[
            ("look 0", 10),
            ("entry 0", 10),
            ("key 0", 5),
            ("timestamp 9", 2),
            ("find 0", 2),
        ],
        complete: &[],
        renewed: false,
    }]
}

fn shelf(signer: Signer, seed: u64) -> Cases {
    let mut shelf = Shelf {
        office: Office::new(signer, seed, KEYS),
        script: Recorder::default(),
        held: None,
        inspected: BTreeSet::new(),
    };
    let parts: [fn(&mut Shelf); 11] = [
        first_root,
        first_release,
        root_that_rotates_timestamp_keys,
        stolen_key,
        root_with_threshold_2_of_3,
        keys_under_keyids_of_others,
        root_with_another_key,
        release_listed_whole,
        old_files_and_lowered_versions,
        expired_timestamp,
        root_with_a_lower_threshold,
    ];
    for part in parts {
        part(&mut shelf);
    }
    let signer = shelf.office.signer();
    let mut cases = shelf.script.take();
    if let Some(first) = cases.first_mut() {
        first.remark(signer);
    }
    all_of(cases)
}

/// The publisher's roots. The first: one root key, and two keys that sign targets together.
fn root(version: u64) -> Root {
    let mut root = Root::new(version, LATER);
    let mut keys = vec![ROOT_A, TIMESTAMP_OLD, SNAPSHOT, TARGETS_A, TARGETS_B];
    root.root = Role::new([ROOT_A], 1);
    root.timestamp = Role::new([TIMESTAMP_OLD], 1);
    root.snapshot = Role::new([SNAPSHOT], 1);
    root.targets = Role::new([TARGETS_A, TARGETS_B], 2);
    if version >= 2 {
        // The old key stays in the table for one more version.
        root.timestamp = Role::new([TIMESTAMP_NEW], 1);
        keys.push(TIMESTAMP_NEW);
    }
    if version >= 3 {
        let root_b = if version >= 4 { ROOT_B_NEW } else { ROOT_B };
        root.root = Role::new([ROOT_A, root_b, ROOT_C], 2);
        keys.retain(|key| *key != TIMESTAMP_OLD);
        keys.extend([root_b, ROOT_C]);
    }
    root.keys = keys.into_iter().map(|key| (key, key)).collect();
    root
}

/// The attacker's private key under the keyid of another.
fn forged(keyid: usize) -> By {
    By { keyid, key: ATTACKER }
}

/// A file of each kind before it is signed.
fn timestamp(version: u64, snapshot: Listed) -> Timestamp {
    let header = Header::new(version, LATER);
    Timestamp { header, snapshot }
}

fn snapshot(version: u64, targets: Listed) -> Snapshot {
    let meta = BTreeMap::from([("targets.json".to_string(), targets)]);
    let header = Header::new(version, LATER);
    Snapshot { header, meta }
}

fn targets(version: u64) -> Targets {
    let image = |(path, content): &(&str, &[u8])| (path.to_string(), (content.len() as u64, digest(content)));
    Targets {
        header: Header::new(version, LATER),
        targets: IMAGES.iter().map(image).collect(),
    }
}

/// The files of one publisher and one attacker, offered one after the other.
struct Shelf {
    office: Office,
    script: Recorder,
    /// The root that is held, by what is stated.
    held: Option<Root>,
    /// Files that were looked into already.
    inspected: BTreeSet<Vec<u8>>,
}

impl Shelf {
    fn root_file(&mut self, root: &Root, entries: &[By]) -> File {
        let part = self.office.root_part(root);
        self.office.signed(&part, entries)
    }

    fn timestamp_file(&mut self, timestamp: &Timestamp, entries: &[By]) -> File {
        self.office.signed(&timestamp.signed(), entries)
    }

    fn snapshot_file(&mut self, snapshot: &Snapshot, entries: &[By]) -> File {
        self.office.signed(&snapshot.signed(), entries)
    }

    fn targets_file(&mut self, version: u64, entries: &[By]) -> File {
        self.office.signed(&targets(version).signed(), entries)
    }

    /// Looks into a file, and asks for its entries and one more.
    fn inspect(&mut self, file: &File) {
        let bytes = file.bytes();
        if !self.inspected.insert(bytes.clone()) {
            return;
        }
        let (start, length, entries) = (file.start(), file.part.len(), file.entries.len());
        let stated = format!("look 0 {start} {length} {entries}");
        self.script.stated(Call::Look(bytes.clone()), stated);
        for ((keyid, signature), place) in file.entries.iter().zip(0..) {
            let stated = format!("entry 0 {keyid} {}", hex::written(signature));
            self.script.stated(
                Call::Entry {
                    file: bytes.clone(),
                    place,
                },
                stated,
            );
        }
        let beyond = Call::Entry {
            file: bytes,
            place: entries as u64,
        };
        self.script
            .stated(beyond, format!("entry 15 {} {}", hex::zeros(64), hex::zeros(128)));
    }

    /// Asks for every key.
    fn ask_keys(&mut self) {
        for number in KEYS {
            let key = self.office.key(number);
            let is_held = self.held.as_ref().map(|root| root.keys.contains_key(&number));
            let stated = match is_held {
                Some(true) => format!("key 0 {}", key.public),
                Some(false) => format!("key 15 {}", hex::zeros(64)),
                None => format!("key 6 {}", hex::zeros(64)),
            };
            self.script.stated(Call::Key(key.keyid.clone().into()), stated);
        }
    }

    /// The verdicts under the held root's keys.
    fn held_row(&mut self, file: &File) -> Vec<u8> {
        let held = self.held.clone().expect("a root is held");
        self.office.row(file, &held)
    }

    fn install(&mut self, root: &Root, file: &File, answer: &str) {
        self.inspect(file);
        let call = Call::Install {
            file: file.bytes(),
            row: self.office.row(file, root),
            time: NOW,
        };
        self.script.stated(call, format!("install {answer}"));
        self.held = answer.starts_with("0 ").then(|| root.clone());
    }

    fn root(&mut self, root: &Root, file: &File, answer: &str) {
        self.inspect(file);
        let call = Call::Root {
            file: file.bytes(),
            held_row: self.held_row(file),
            own_row: self.office.row(file, root),
        };
        self.script.stated(call, format!("root {answer}"));
        if answer.starts_with("0 ") {
            self.held = Some(root.clone());
        }
    }

    fn timestamp(&mut self, file: &File, answer: &str) {
        self.inspect(file);
        let row = self.held_row(file);
        let file = file.bytes();
        self.script
            .stated(Call::Timestamp { file, row }, format!("timestamp {answer}"));
    }

    fn snapshot(&mut self, file: &File, answer: &str) {
        self.inspect(file);
        let call = Call::Snapshot {
            file: file.bytes(),
            row: self.held_row(file),
        };
        self.script.stated(call, format!("snapshot {answer}"));
    }

    fn targets(&mut self, file: &File, answer: &str) {
        self.inspect(file);
        let call = Call::Targets {
            file: file.bytes(),
            row: self.held_row(file),
        };
        self.script.stated(call, format!("targets {answer}"));
    }

    fn find(&mut self, file: &File, path: &str, answer: String) {
        let call = Call::Find {
            file: file.bytes(),
            path: path.into(),
        };
        self.script.stated(call, answer);
    }

    fn find_refused(&mut self, file: &File, path: &str, number: u8) {
        self.find(file, path, refused(number));
    }

    /// Finds every image, and compares it and others with what was found.
    fn find_all(&mut self, file: &File) {
        for ((path, content), compared) in IMAGES.iter().zip(1..) {
            let (length, sha256) = (content.len() as u64, digest(content));
            self.find(file, path, found(length, &sha256, compared));
            let mut fetched = |length: u64, sha256: Digest, answer: &str| {
                let call = Call::Image {
                    found: (content.len() as u64, digest(content).to_vec()),
                    fetched: (length, sha256.to_vec()),
                };
                self.script.stated(call, format!("image {answer}"));
            };
            fetched(length, sha256, "0");
            fetched(length, digest(b"another image"), "8");
            fetched(length + 1, sha256, "8");
        }
        // Before the first image, and between the last two: a backslash stands behind a quotation mark.
        self.find(file, "gate", not_listed(1));
        self.find(file, r#"pump \"old\"\\1.img"#, not_listed(4));
        self.find_refused(&file.damaged(), IMAGES[0].0, 8);
        // The same signed part, but the digest is that of the whole file.
        let unsigned = File {
            entries: Vec::new(),
            ..file.clone()
        };
        self.find_refused(&unsigned, IMAGES[0].0, 8);
    }
}

/// Install: judged by its own root role (10).
fn first_root(shelf: &mut Shelf) {
    shelf.ask_keys();
    let first = root(1);
    let honest = shelf.root_file(&first, &[by(ROOT_A)]);
    let blank = "10 root=- timestamp=- snapshot=- targets=- time=-9223372036854775808";
    for entries in [&[][..], &[by(ATTACKER)], &[forged(ROOT_A)], &[by(TIMESTAMP_OLD)]] {
        let file = shelf.root_file(&first, entries);
        shelf.install(&first, &file, blank);
    }
    let other = shelf.root_file(&root(2), &[by(ROOT_A)]);
    shelf.install(&first, &honest.damaged(), blank);
    shelf.install(&first, &honest.with_entries_of(&other), blank);
    // The attacker's key under the keyid of A verifies what it signs.
    let mut taken_over = first.clone();
    taken_over.keys.insert(ROOT_A, ATTACKER);
    let file = shelf.root_file(&taken_over, &[forged(ROOT_A)]);
    shelf.install(&taken_over, &file, &blank.replacen("10", "16", 1));
    let held = format!("0 root=1 timestamp=- snapshot=- targets=- time={NOW}");
    shelf.install(&first, &honest, &held);
    shelf.ask_keys();
}

/// Timestamp, snapshot and targets, listed by version alone: what is not signed by enough keys of the role is 9.
fn first_release(shelf: &mut Shelf) {
    let refused = format!("9 root=1 timestamp=- snapshot=- targets=- time={NOW}");
    let offered = timestamp(1, Listed::version(1));
    let honest = shelf.timestamp_file(&offered, &[by(TIMESTAMP_OLD)]);
    for entries in [&[][..], &[by(ATTACKER)], &[forged(TIMESTAMP_OLD)], &[by(SNAPSHOT)]] {
        let file = shelf.timestamp_file(&offered, entries);
        shelf.timestamp(&file, &refused);
    }
    let other = shelf.timestamp_file(&timestamp(2, Listed::version(1)), &[by(TIMESTAMP_OLD)]);
    shelf.timestamp(&honest.damaged(), &refused);
    shelf.timestamp(&honest.with_entries_of(&other), &refused);
    shelf.timestamp(
        &honest,
        &format!("0 root=1 timestamp=1 snapshot=- targets=- time={NOW}"),
    );

    let refused = format!("9 root=1 timestamp=1 snapshot=- targets=- time={NOW}");
    let offered = snapshot(1, Listed::version(1));
    let honest = shelf.snapshot_file(&offered, &[by(SNAPSHOT)]);
    for entries in [&[by(ATTACKER)], &[forged(SNAPSHOT)], &[by(TIMESTAMP_OLD)]] {
        let file = shelf.snapshot_file(&offered, entries);
        shelf.snapshot(&file, &refused);
    }
    let other = shelf.snapshot_file(&snapshot(1, Listed::version(2)), &[by(SNAPSHOT)]);
    shelf.snapshot(&honest.damaged(), &refused);
    shelf.snapshot(&honest.with_entries_of(&other), &refused);
    shelf.snapshot(
        &honest,
        &format!("0 root=1 timestamp=1 snapshot=1 targets=- time={NOW}"),
    );

    let refused = format!("9 root=1 timestamp=1 snapshot=1 targets=- time={NOW}");
    let honest = shelf.targets_file(1, &[by(TARGETS_A), by(TARGETS_B)]);
    for entries in [
        // Two valid entries of one key count 1.
        &[by(TARGETS_A), by(TARGETS_A)][..],
        &[by(TARGETS_A)],
        &[by(TARGETS_A), by(ATTACKER)],
        &[by(TARGETS_A), forged(TARGETS_B)],
        &[forged(TARGETS_A), forged(TARGETS_B)],
    ] {
        let file = shelf.targets_file(1, entries);
        shelf.targets(&file, &refused);
    }
    let other = shelf.targets_file(2, &[by(TARGETS_A), by(TARGETS_B)]);
    shelf.targets(&honest.damaged(), &refused);
    shelf.targets(&honest.with_entries_of(&other), &refused);
    shelf.find_refused(&honest, IMAGES[0].0, 6);
    shelf.targets(
        &honest,
        &format!("0 root=1 timestamp=1 snapshot=1 targets=1 time={NOW}"),
    );
    shelf.find_all(&honest);
}

/// Root 2: "Timestamp or snapshot keys are rotated", by another set of keyids.
fn root_that_rotates_timestamp_keys(shelf: &mut Shelf) {
    let held = |number: u8| format!("{number} root=1 timestamp=1 snapshot=1 targets=1 time={NOW}");
    let second = root(2);
    let honest = shelf.root_file(&second, &[by(ROOT_A)]);
    for entries in [&[by(ATTACKER)], &[forged(ROOT_A)], &[by(TIMESTAMP_OLD)]] {
        let file = shelf.root_file(&second, entries);
        shelf.root(&second, &file, &held(9));
    }
    let first = shelf.root_file(&root(1), &[by(ROOT_A)]);
    shelf.root(&second, &honest.damaged(), &held(9));
    shelf.root(&second, &honest.with_entries_of(&first), &held(9));

    // A root of the attacker has enough keys of its own, and none of the held one.
    let mut taken_over = second.clone();
    taken_over.keys.insert(ATTACKER, ATTACKER);
    taken_over.root = Role::new([ATTACKER], 1);
    let file = shelf.root_file(&taken_over, &[by(ATTACKER)]);
    shelf.root(&taken_over, &file, &held(9));

    // Enough keys of both, but a version was skipped; and the one that is held.
    let third = root(3);
    let file = shelf.root_file(&third, &[by(ROOT_A), by(ROOT_B)]);
    shelf.root(&third, &file, &held(11));
    shelf.root(&root(1), &first, &held(11));

    shelf.root(
        &second,
        &honest,
        &format!("0 root=2 timestamp=- snapshot=- targets=- time={NOW}"),
    );
    shelf.ask_keys();
}

/// The key that was rotated away signs nothing any more, though the table still has it.
fn stolen_key(shelf: &mut Shelf) {
    let refused = format!("9 root=2 timestamp=- snapshot=- targets=- time={NOW}");
    let stolen = shelf.timestamp_file(&timestamp(9, Listed::version(9)), &[by(TIMESTAMP_OLD)]);
    shelf.timestamp(&stolen, &refused);
    let old = shelf.timestamp_file(&timestamp(1, Listed::version(1)), &[by(TIMESTAMP_OLD)]);
    shelf.timestamp(&old, &refused);

    let file = shelf.timestamp_file(&timestamp(2, Listed::version(2)), &[by(TIMESTAMP_NEW)]);
    shelf.timestamp(&file, &format!("0 root=2 timestamp=2 snapshot=- targets=- time={NOW}"));
    shelf.timestamp(&file, &format!("12 root=2 timestamp=2 snapshot=- targets=- time={NOW}"));
    shelf.timestamp(
        &stolen,
        &format!("9 root=2 timestamp=2 snapshot=- targets=- time={NOW}"),
    );
    let file = shelf.snapshot_file(&snapshot(2, Listed::version(2)), &[by(SNAPSHOT)]);
    shelf.snapshot(&file, &format!("0 root=2 timestamp=2 snapshot=2 targets=- time={NOW}"));
    let file = shelf.targets_file(2, &[by(TARGETS_A), by(TARGETS_B)]);
    shelf.targets(&file, &format!("0 root=2 timestamp=2 snapshot=2 targets=2 time={NOW}"));
    shelf.find_all(&file);
}

/// Root 3 is judged by one key of root 2, and by two of its own three (10). No other role's keys change: nothing is dropped.
fn root_with_threshold_2_of_3(shelf: &mut Shelf) {
    let held = |number: u8| format!("{number} root=2 timestamp=2 snapshot=2 targets=2 time={NOW}");
    let third = root(3);
    let honest = shelf.root_file(&third, &[by(ROOT_A), by(ROOT_B)]);
    for (entries, number) in [
        (&[by(ROOT_A)][..], 10),
        (&[by(ROOT_A), by(ROOT_A)], 10),
        (&[by(ROOT_A), forged(ROOT_B)], 10),
        (&[by(ROOT_A), by(ATTACKER)], 10),
        (&[by(ROOT_B), by(ROOT_C)], 9),
        (&[forged(ROOT_A), by(ROOT_B), by(ROOT_C)], 9),
    ] {
        let file = shelf.root_file(&third, entries);
        shelf.root(&third, &file, &held(number));
    }
    shelf.root(&third, &honest.damaged(), &held(9));
    shelf.root(
        &third,
        &honest,
        &format!("0 root=3 timestamp=2 snapshot=2 targets=2 time={NOW}"),
    );
    shelf.ask_keys();
    // Now the table has it no more, and still it is 9.
    let stolen = shelf.timestamp_file(&timestamp(9, Listed::version(9)), &[by(TIMESTAMP_OLD)]);
    let refused = format!("9 root=3 timestamp=2 snapshot=2 targets=2 time={NOW}");
    shelf.timestamp(&stolen, &refused);
}

/// Roots 4 that have a key under the keyid of another are refused with 16, whoever signs them: the key B exchanged by the
/// publisher, who leaves its keyid as it was; the attacker's key in the place of one that is held, or of one that no role
/// names.
fn keys_under_keyids_of_others(shelf: &mut Shelf) {
    let held = |number: u8| format!("{number} root=3 timestamp=2 snapshot=2 targets=2 time={NOW}");
    let mut fourth = root(3);
    fourth.header.version = 4;
    for (keyid, key) in [(ROOT_B, ROOT_B_NEW), (ROOT_C, ATTACKER), (TIMESTAMP_OLD, ATTACKER)] {
        let mut exchanged = fourth.clone();
        exchanged.keys.insert(keyid, key);
        let signed_by_new = By { keyid, key };
        for entries in [
            &[by(ROOT_A), by(ROOT_B), signed_by_new][..],
            &[by(ROOT_A), signed_by_new],
        ] {
            let file = shelf.root_file(&exchanged, entries);
            shelf.root(&exchanged, &file, &held(16));
        }
    }
    shelf.ask_keys();
}

/// Root 4 has another root key in the place of B, under its own keyid: its two rows of verdicts differ. No other role's keys
/// change: nothing is dropped.
fn root_with_another_key(shelf: &mut Shelf) {
    let held = |number: u8| format!("{number} root=3 timestamp=2 snapshot=2 targets=2 time={NOW}");
    let fourth = root(4);
    // The old key B verifies under the held root alone, the new one under root 4 alone.
    for (entries, number) in [([by(ROOT_A), by(ROOT_B)], 10), ([by(ROOT_A), by(ROOT_B_NEW)], 9)] {
        let file = shelf.root_file(&fourth, &entries);
        shelf.root(&fourth, &file, &held(number));
    }
    let honest = shelf.root_file(&fourth, &[by(ROOT_A), by(ROOT_B), by(ROOT_B_NEW)]);
    shelf.root(
        &fourth,
        &honest,
        &format!("0 root=4 timestamp=2 snapshot=2 targets=2 time={NOW}"),
    );
    shelf.ask_keys();

    let fifth = root(5);
    let refused = format!("9 root=4 timestamp=2 snapshot=2 targets=2 time={NOW}");
    let stolen = shelf.root_file(&fifth, &[by(ROOT_A), by(ROOT_B)]);
    shelf.root(&fifth, &stolen, &refused);
}

/// A release of which length and digest are listed: any other file is 8, and its signatures do not matter.
fn release_listed_whole(shelf: &mut Shelf) {
    let both = [by(TARGETS_B), by(TARGETS_A)];
    let targets = shelf.targets_file(3, &both);
    let offered = snapshot(3, Listed::whole(3, &targets.bytes()));
    let honest = shelf.snapshot_file(&offered, &[by(SNAPSHOT)]);
    let listed = Listed::whole(3, &honest.bytes());
    let file = shelf.timestamp_file(&timestamp(3, listed), &[by(TIMESTAMP_NEW)]);
    shelf.timestamp(&file, &format!("0 root=4 timestamp=3 snapshot=2 targets=2 time={NOW}"));

    let refused = format!("8 root=4 timestamp=3 snapshot=2 targets=2 time={NOW}");
    let forged_file = shelf.snapshot_file(&offered, &[forged(SNAPSHOT)]);
    shelf.snapshot(&forged_file, &refused);
    shelf.snapshot(&honest.damaged(), &refused);
    shelf.snapshot(
        &honest,
        &format!("0 root=4 timestamp=3 snapshot=3 targets=2 time={NOW}"),
    );

    let refused = format!("8 root=4 timestamp=3 snapshot=3 targets=2 time={NOW}");
    let forged_file = shelf.targets_file(3, &[forged(TARGETS_B), forged(TARGETS_A)]);
    shelf.targets(&forged_file, &refused);
    shelf.targets(&targets.damaged(), &refused);
    shelf.find_refused(&targets, IMAGES[0].0, 6);
    shelf.targets(
        &targets,
        &format!("0 root=4 timestamp=3 snapshot=3 targets=3 time={NOW}"),
    );
    shelf.find_all(&targets);
}

/// Files that were good once, and new ones that list lower versions, all of them truly signed.
fn old_files_and_lowered_versions(shelf: &mut Shelf) {
    let held = |number: u8| format!("{number} root=4 timestamp=3 snapshot=3 targets=3 time={NOW}");
    let by_timestamp = [by(TIMESTAMP_NEW)];
    let file = shelf.timestamp_file(&timestamp(2, Listed::version(2)), &by_timestamp);
    shelf.timestamp(&file, &held(11));
    let file = shelf.timestamp_file(&timestamp(4, Listed::version(2)), &by_timestamp);
    shelf.timestamp(&file, &held(13));
    let file = shelf.snapshot_file(&snapshot(2, Listed::version(2)), &[by(SNAPSHOT)]);
    shelf.snapshot(&file, &held(8));
    let file = shelf.targets_file(2, &[by(TARGETS_A), by(TARGETS_B)]);
    shelf.targets(&file, &held(8));

    let mut week = timestamp(5, Listed::version(4));
    week.header.expires = A_WEEK_LATER;
    let file = shelf.timestamp_file(&week, &by_timestamp);
    shelf.timestamp(&file, &format!("0 root=4 timestamp=5 snapshot=3 targets=3 time={NOW}"));
    let held = |number: u8| format!("{number} root=4 timestamp=5 snapshot=3 targets=3 time={NOW}");
    let targets = shelf.targets_file(3, &[by(TARGETS_B), by(TARGETS_A)]);
    // Snapshot 3 is no longer the listed one.
    shelf.targets(&targets, &held(6));
    shelf.find_refused(&targets, IMAGES[0].0, 6);
    let file = shelf.snapshot_file(&snapshot(4, Listed::version(2)), &[by(SNAPSHOT)]);
    shelf.snapshot(&file, &held(13));
    let file = shelf.snapshot_file(&snapshot(3, Listed::version(3)), &[by(SNAPSHOT)]);
    shelf.snapshot(&file, &held(11));
    let file = shelf.snapshot_file(&snapshot(4, Listed::version(3)), &[by(SNAPSHOT)]);
    shelf.snapshot(&file, &format!("0 root=4 timestamp=5 snapshot=4 targets=3 time={NOW}"));
    shelf.find_all(&targets);
}

/// "Expired means: expires is at or below the start time in force."
fn expired_timestamp(shelf: &mut Shelf) {
    let targets = shelf.targets_file(3, &[by(TARGETS_B), by(TARGETS_A)]);
    for (time, expired) in [(A_WEEK_LATER - 1, false), (A_WEEK_LATER, true)] {
        shelf.script.stated(
            Call::Cycle(time),
            format!("cycle 0 root=4 timestamp=5 snapshot=4 targets=3 time={time}"),
        );
        match expired {
            false => shelf.find_all(&targets),
            true => shelf.find_refused(&targets, IMAGES[0].0, 7),
        }
    }
    let held = |number: u8| format!("{number} root=4 timestamp=5 snapshot=4 targets=3 time={A_WEEK_LATER}");
    shelf.targets(&targets, &held(7));

    let mut past = timestamp(6, Listed::version(4));
    past.header.expires = A_WEEK_LATER;
    let honest = shelf.timestamp_file(&past, &[by(TIMESTAMP_NEW)]);
    shelf.timestamp(&honest, &held(14));
    // "A timestamp both too thinly signed and expired: 9."
    let thin = shelf.timestamp_file(&past, &[forged(TIMESTAMP_NEW)]);
    shelf.timestamp(&thin, &held(9));

    let fresh = shelf.timestamp_file(&timestamp(6, Listed::version(4)), &[by(TIMESTAMP_NEW)]);
    shelf.timestamp(
        &fresh,
        &format!("0 root=4 timestamp=6 snapshot=4 targets=3 time={A_WEEK_LATER}"),
    );
    shelf.find_all(&targets);
}

/// Root 5 has the same keys as root 4, but one that signs targets is enough (A5): the targets record alone is dropped.
fn root_with_a_lower_threshold(shelf: &mut Shelf) {
    let held =
        |root: u64, targets: &str| format!("root={root} timestamp=6 snapshot=4 targets={targets} time={A_WEEK_LATER}");
    let one_key = shelf.targets_file(3, &[by(TARGETS_B)]);
    shelf.targets(&one_key, &format!("9 {}", held(4, "3")));

    let mut fifth = root(5);
    fifth.targets.threshold = 1;
    let file = shelf.root_file(&fifth, &[by(ROOT_A), by(ROOT_C)]);
    shelf.root(&fifth, &file, &format!("0 {}", held(5, "-")));
    let both_keys = shelf.targets_file(3, &[by(TARGETS_B), by(TARGETS_A)]);
    shelf.find_refused(&both_keys, IMAGES[0].0, 6);
    let forged_file = shelf.targets_file(3, &[forged(TARGETS_B)]);
    shelf.targets(&forged_file, &format!("9 {}", held(5, "-")));
    shelf.targets(&one_key, &format!("0 {}", held(5, "3")));
    shelf.find_all(&one_key);
    // The threshold is that of targets: their key still signs nothing else.
    let file = shelf.timestamp_file(&timestamp(7, Listed::version(4)), &[by(TARGETS_B)]);
    shelf.timestamp(&file, &format!("9 {}", held(5, "3")));
}

#[cfg(test)]
mod tests {
    use super::{KEYS, ROOT_A, ROOT_B, ROOT_B_NEW, forged, root, shelf};
    use crate::calls::Call;
    use crate::groups::signed::office::{Office, by};
    use crate::shelf::signer::Signer;
    use paper::state::State;

    /// The words of each line that do not depend on who signs: the call, its verdicts, and what is stated.
    fn told(signer: Signer) -> Vec<String> {
        let cases = shelf(signer, 1);
        let told = cases.map(|case| match case.call() {
            Some(Call::Install { row, .. } | Call::Timestamp { row, .. }) => format!("{row:?}"),
            Some(Call::Snapshot { row, .. } | Call::Targets { row, .. }) => format!("{row:?}"),
            Some(Call::Root { held_row, own_row, .. }) => format!("{held_row:?} {own_row:?}"),
            _ => String::new(),
        });
        told.collect()
    }

    #[test]
    fn every_signer_gives_the_same_verdicts() {
        let told: Vec<_> = Signer::all().map(told).collect();
        assert!(told[0].iter().any(|rows| rows == "[1, 1, 0] [1, 0, 1]"));
        assert!(told.iter().all(|one| *one == told[0]));
    }

    #[test]
    fn a_verdict_that_is_not_worked_out_is_noticed() {
        let mut office = Office::new(Signer::at_hand(), 1, KEYS);
        let first = root(1);
        let part = office.root_part(&first);
        let file = office.signed(&part, &[forged(ROOT_A)]);
        let row = office.row(&file, &first);
        assert!(State::install(&file.bytes(), &row, 0).is_err());
        assert!(State::install(&file.bytes(), &[1], 0).is_ok());
    }

    #[test]
    fn root_4_has_two_rows() {
        let mut office = Office::new(Signer::at_hand(), 1, KEYS);
        let part = office.root_part(&root(4));
        let file = office.signed(&part, &[by(ROOT_A), by(ROOT_B), by(ROOT_B_NEW)]);
        assert_eq!(office.row(&file, &root(3)), [1, 1, 0]);
        assert_eq!(office.row(&file, &root(4)), [1, 0, 1]);
    }
}
