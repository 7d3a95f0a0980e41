//! The cases that document 01 names: "Dates, texts and files to try" and "How a controller gets it wrong", and what it
//! says of the steps. Every answer is stated here.

use std::collections::BTreeMap;

use super::finds::{found, not_listed, refused};
use super::{Recorder, all_of};
use crate::calls::Call;
use crate::compare::{Cases, Group};
use crate::shelf::files::{
    self, HIGHEST_VERSION, Header, Listed, Role, Root, Snapshot, Targets, Timestamp, keyid, public,
};
use crate::shelf::sha256::{Digest, digest};

const NOW: i64 = 1_000_000_000;
const LATER: i64 = 2_000_000_000;

/// What is held after [`Shelf::complete`].
const COMPLETE: &str = "root=1 timestamp=3 snapshot=5 targets=7";

/// A version that the office's new tool makes from a date (A7).
const NOON: u64 = 20_260_101_120_000;

/// The group.
pub fn groups() -> Vec<Group> {
    vec![Group {
        name: "history, by name",
        calls: &[
            "install",
            "cycle",
            "root",
            "timestamp",
            "snapshot",
            "targets",
            "find",
            "key",
            "image",
            "state",
        ],
        cases: |_| by_name(),
        least: 250,
        shares: &[],
        complete: &[],
        renewed: false,
    }]
}

fn by_name() -> Cases {
    let cases: [fn(&mut Shelf); 23] = [
        two_valid_entries_of_one_key_count_1,
        held_root_4,
        no_next_root_after_the_highest,
        versions_made_from_dates,
        roots_made_from_dates,
        expires_1000,
        length_of_a_file,
        empty_targets_list,
        thinly_signed_and_expired,
        counting_signatures_instead_of_keys,
        judging_a_new_root_by_one_row,
        names_with_their_escapes_or_closing_quote,
        skipping_roots,
        expired_root_in_the_middle_of_the_chain,
        dividing_toward_zero_before_1970,
        blank_state,
        new_histories_and_cycles,
        flat_battery,
        rotations,
        equal_sets_and_thresholds_1_and_2,
        nothing_falls,
        current_records,
        lowest_number,
    ];
    let mut shelf = Shelf::default();
    for case in cases {
        case(&mut shelf);
    }
    all_of(shelf.script.take())
}

/// Files of one publisher, offered one after the other.
#[derive(Default)]
struct Shelf {
    script: Recorder,
}

impl Shelf {
    fn install(&mut self, root: &Root, keys: &[usize], row: &[u8], time: i64, answer: &str) {
        let file = files::file(root.signed(), keys).written();
        let row = row.to_vec();
        let call = Call::Install { file, row, time };
        self.script.stated(call, format!("install {answer}"));
    }

    /// Installs [`Root::new`] with version 1.
    fn begin(&mut self) {
        self.begin_at(NOW);
    }

    fn begin_at(&mut self, time: i64) {
        self.install(&Root::new(1, LATER), &[1], &[1], time, "0");
    }

    /// Holds timestamp 3, snapshot 5 with `a` at 9, and targets 7.
    fn complete(&mut self) {
        self.complete_at(NOW);
    }

    fn complete_at(&mut self, time: i64) {
        self.begin_at(time);
        self.timestamp(3, 5, "0");
        self.snapshot(5, &[("a", 9), ("targets.json", 7)], "0");
        self.targets(7, &format!("0 {COMPLETE} time={time}"));
    }

    /// A cycle that is accepted.
    fn cycle(&mut self, time: i64) {
        self.cycle_with(time, "0");
    }

    fn cycle_with(&mut self, time: i64, answer: &str) {
        self.script.stated(Call::Cycle(time), format!("cycle {answer}"));
    }

    fn state(&mut self, answer: &str) {
        self.script.stated(Call::State, format!("state {answer}"));
    }

    fn root(&mut self, root: &Root, keys: &[usize], held_row: &[u8], own_row: &[u8], answer: &str) {
        let call = Call::Root {
            file: files::file(root.signed(), keys).written(),
            held_row: held_row.to_vec(),
            own_row: own_row.to_vec(),
        };
        self.script.stated(call, format!("root {answer}"));
    }

    fn timestamp(&mut self, version: u64, snapshot: u64, answer: &str) {
        self.timestamp_with(
            Header::new(version, LATER),
            Listed::version(snapshot),
            &[3],
            &[1],
            answer,
        );
    }

    /// A timestamp that lists snapshot 5, with a good signature of each of these keys.
    fn timestamp_by(&mut self, version: u64, keys: &[usize], answer: &str) {
        let row = vec![1; keys.len()];
        self.timestamp_with(Header::new(version, LATER), Listed::version(5), keys, &row, answer);
    }

    fn timestamp_with(&mut self, header: Header, snapshot: Listed, keys: &[usize], row: &[u8], answer: &str) {
        let call = Call::Timestamp {
            file: files::file(Timestamp { header, snapshot }.signed(), keys).written(),
            row: row.to_vec(),
        };
        self.script.stated(call, format!("timestamp {answer}"));
    }

    fn snapshot(&mut self, version: u64, names: &[(&str, u64)], answer: &str) {
        self.snapshot_with(snapshot_file(version, LATER, names), &[1], answer);
    }

    fn snapshot_with(&mut self, file: Vec<u8>, row: &[u8], answer: &str) {
        let row = row.to_vec();
        self.script
            .stated(Call::Snapshot { file, row }, format!("snapshot {answer}"));
    }

    fn targets(&mut self, version: u64, answer: &str) {
        self.targets_with(targets_file(version, LATER), &[1], answer);
    }

    fn targets_with(&mut self, file: Vec<u8>, row: &[u8], answer: &str) {
        let row = row.to_vec();
        self.script
            .stated(Call::Targets { file, row }, format!("targets {answer}"));
    }

    /// Finds a path in targets 7, or in that of another version.
    fn find(&mut self, path: &[u8], answer: String) {
        self.find_in(7, path, answer);
    }

    fn find_in(&mut self, version: u64, path: &[u8], answer: String) {
        self.find_with(targets_file(version, LATER), path, answer);
    }

    fn find_with(&mut self, file: Vec<u8>, path: &[u8], answer: String) {
        let path = path.to_vec();
        self.script.stated(Call::Find { file, path }, answer);
    }

    fn key(&mut self, key: usize, answer: &str) {
        let call = Call::Key(keyid(key).into());
        self.script.stated(call, format!("key {answer}"));
    }
}

fn snapshot_file(version: u64, expires: i64, names: &[(&str, u64)]) -> Vec<u8> {
    let names = names
        .iter()
        .map(|(name, version)| (name.to_string(), Listed::version(*version)));
    let snapshot = Snapshot {
        header: Header::new(version, expires),
        meta: names.collect(),
    };
    files::file(snapshot.signed(), &[5]).written()
}

fn targets_file(version: u64, expires: i64) -> Vec<u8> {
    targets_signed_by(version, expires, &[7])
}

fn targets_signed_by(version: u64, expires: i64, keys: &[usize]) -> Vec<u8> {
    let targets = BTreeMap::from([
        ("a\"b\\".to_string(), (4_294_967_295, image_digest())),
        ("image".to_string(), (0, image_digest())),
    ]);
    let header = Header::new(version, expires);
    files::file(Targets { header, targets }.signed(), keys).written()
}

/// The answer to `image`, which stands behind `a"b\` in those files.
fn image_found() -> String {
    found(0, &image_digest(), 2)
}

fn image_digest() -> Digest {
    digest(b"an image")
}

fn two_valid_entries_of_one_key_count_1(shelf: &mut Shelf) {
    let mut root = Root::new(1, LATER);
    root.root = Role::new([1, 2], 2);
    shelf.install(&root, &[1, 1], &[1, 1], NOW, "10");
    shelf.install(&root, &[1, 1, 2], &[1, 1, 0], NOW, "10");
    shelf.install(&root, &[1, 9, 3], &[1, 1, 1], NOW, "10");
    shelf.install(&root, &[1, 1, 2], &[0, 1, 1], NOW, "0");
}

fn held_root_4(shelf: &mut Shelf) {
    for (version, answer) in [(4, "11"), (6, "11"), (3, "11"), (1, "11"), (5, "0")] {
        shelf.install(&Root::new(4, LATER), &[1], &[1], NOW, "0");
        shelf.root(&Root::new(version, LATER), &[1], &[1], &[1], answer);
    }
}

fn no_next_root_after_the_highest(shelf: &mut Shelf) {
    shelf.install(&Root::new(HIGHEST_VERSION - 1, LATER), &[1], &[1], NOW, "0");
    shelf.root(
        &Root::new(HIGHEST_VERSION, LATER),
        &[1],
        &[1],
        &[1],
        &format!("0 root={HIGHEST_VERSION}"),
    );
    for (version, answer) in [
        (HIGHEST_VERSION, "11"),
        (HIGHEST_VERSION - 1, "11"),
        (1, "11"),
        (0, "3"),
        (1 << 32, "11"),
        (HIGHEST_VERSION + 1, "3"),
        (HIGHEST_VERSION + 2, "3"),
        (1 << 63, "3"),
    ] {
        shelf.root(&Root::new(version, LATER), &[1], &[1], &[1], answer);
    }
}

/// A7: "The office's new tool numbers files like 20260101120000, beyond our limit." Before it they were numbered by hand.
fn versions_made_from_dates(shelf: &mut Shelf) {
    shelf.complete();
    shelf.timestamp(
        NOON,
        NOON + 5,
        &format!("0 root=1 timestamp={NOON} snapshot=5 targets=7"),
    );
    shelf.timestamp(4, 6, "11");
    shelf.timestamp(NOON, NOON + 5, "12");
    shelf.timestamp(NOON + 1, 6, "13");
    shelf.timestamp(NOON + 1, NOON + 4, "13");
    shelf.timestamp(HIGHEST_VERSION + 1, NOON + 5, "3");
    shelf.timestamp(NOON + 1, HIGHEST_VERSION + 1, "3");
    shelf.find(b"image", refused(6));
    shelf.targets(7, "6");

    let names = [("a", NOON + 9), ("targets.json", NOON + 7)];
    shelf.snapshot(6, &names, "11");
    shelf.snapshot(NOON + 4, &names, "11");
    let held = format!("root=1 timestamp={NOON} snapshot={}", NOON + 5);
    shelf.snapshot(NOON + 5, &names, &format!("0 {held} targets=7"));
    shelf.snapshot(NOON + 5, &[("a", 10), names[1]], "13");
    shelf.snapshot(NOON + 5, &[("a", NOON + 8), names[1]], "13");
    shelf.snapshot(NOON + 5, &[names[0], ("targets.json", 8)], "13");
    shelf.snapshot(NOON + 5, &[names[0], ("targets.json", HIGHEST_VERSION + 1)], "3");
    shelf.find(b"image", refused(6));

    shelf.targets(8, "11");
    shelf.targets(NOON + 6, "11");
    shelf.targets(NOON + 7, &format!("0 {held} targets={}", NOON + 7));
    shelf.find_in(NOON + 7, b"image", image_found());
}

/// Roots rise by one, whatever they are numbered by.
fn roots_made_from_dates(shelf: &mut Shelf) {
    for (held, version, answer) in [
        (1, NOON, "11"),
        (NOON, 2, "11"),
        (NOON, NOON, "11"),
        (NOON, NOON + 100, "11"),
        (NOON, NOON + 1, "0 root=20260101120001"),
        // Before A7 this was the highest version.
        (2_147_483_647, 2_147_483_648, "0 root=2147483648"),
    ] {
        shelf.install(&Root::new(held, LATER), &[1], &[1], NOW, &format!("0 root={held}"));
        shelf.root(&Root::new(version, LATER), &[1], &[1], &[1], answer);
    }
}

fn expires_1000(shelf: &mut Shelf) {
    for (start, answer) in [(999, "0"), (1000, "14"), (1001, "14")] {
        shelf.begin_at(0);
        shelf.cycle(start);
        shelf.timestamp_with(Header::new(1, 1000), Listed::version(1), &[3], &[1], answer);
    }
    for (start, answer) in [(999, "0"), (1000, "7"), (1001, "7")] {
        shelf.install(&Root::new(1, 1000), &[1], &[1], start, "0");
        shelf.timestamp(1, 1, answer);
    }
    for (start, snapshot, targets) in [
        (999, "0", "0"),
        (1000, "14", "6"),
        (i64::MAX, "7", "6"),
        (i64::MIN, "0", "0"),
    ] {
        shelf.begin_at(i64::MIN);
        shelf.timestamp(1, 1, "0");
        shelf.cycle(start);
        let file = snapshot_file(1, 1000, &[("targets.json", 7)]);
        shelf.snapshot_with(file, &[1], snapshot);
        shelf.targets(7, targets);
    }
    // Every record that is leaned on, one second before it expires and when it does. It stays expired (A8).
    for expiring in ["root", "timestamp", "snapshot", "targets"] {
        let expires = |record| if record == expiring { 1000 } else { LATER };
        shelf.install(&Root::new(1, expires("root")), &[1], &[1], 0, "0");
        shelf.timestamp_with(
            Header::new(1, expires("timestamp")),
            Listed::version(1),
            &[3],
            &[1],
            "0",
        );
        let snapshot = snapshot_file(1, expires("snapshot"), &[("targets.json", 7)]);
        shelf.snapshot_with(snapshot, &[1], "0");
        let targets = targets_file(7, expires("targets"));
        shelf.targets_with(targets.clone(), &[1], "0");
        shelf.cycle(999);
        shelf.find_with(targets.clone(), b"image", image_found());
        shelf.cycle(1000);
        shelf.find_with(targets.clone(), b"image", refused(7));
        shelf.cycle_with(999, "17 root=1 timestamp=1 snapshot=1 targets=7 time=1000");
        shelf.find_with(targets, b"image", refused(7));
    }
}

fn length_of_a_file(shelf: &mut Shelf) {
    let timestamp = Timestamp {
        header: Header::new(1, LATER),
        snapshot: Listed::version(1),
    };
    let timestamp = files::file(timestamp.signed(), &[3]);
    for (length, answer) in [(32_769, "1"), (32_768, "0")] {
        shelf.begin();
        let call = Call::Timestamp {
            file: files::padded(&timestamp, length, true),
            row: vec![1],
        };
        shelf.script.stated(call, format!("timestamp {answer}"));
    }
}

fn empty_targets_list(shelf: &mut Shelf) {
    shelf.begin();
    shelf.timestamp(1, 1, "0");
    shelf.snapshot(1, &[("targets.json", 1)], "0");
    let targets = Targets {
        header: Header::new(1, LATER),
        targets: BTreeMap::new(),
    };
    let file = files::file(targets.signed(), &[7]).written();
    shelf.targets_with(file.clone(), &[1], "0");
    shelf.find_with(file.clone(), b"image", not_listed(0));
    shelf.find_with(file.clone(), b"", not_listed(0));
    shelf.find_in(1, b"image", refused(8));
    shelf.cycle(LATER);
    shelf.find_with(file, b"image", refused(7));
}

fn thinly_signed_and_expired(shelf: &mut Shelf) {
    shelf.begin();
    shelf.timestamp_with(Header::new(1, NOW), Listed::version(1), &[3], &[0], "9");
    shelf.timestamp_with(Header::new(1, NOW), Listed::version(1), &[3], &[1], "14");
    shelf.timestamp_with(Header::new(1, NOW + 1), Listed::version(1), &[3], &[0], "9");
}

fn counting_signatures_instead_of_keys(shelf: &mut Shelf) {
    let mut root = Root::new(1, LATER);
    root.timestamp = Role::new([3, 4], 2);
    shelf.install(&root, &[1], &[1], NOW, "0");
    for (keys, row, answer) in [
        (&[3, 3][..], &[1, 1][..], "9"),
        (&[3, 3, 3, 3, 3], &[1, 1, 1, 1, 1], "9"),
        (&[3, 5], &[1, 1], "9"),
        (&[3, 99], &[1, 1], "9"),
        (&[3, 4], &[1, 0], "9"),
        (&[3, 4], &[0, 0], "9"),
        (&[], &[], "9"),
        (&[3, 4], &[1], "5"),
        (&[3, 4], &[1, 1, 1], "5"),
        (&[3, 4], &[1, 2], "5"),
        (&[3, 4], &[1, 255], "5"),
        (&[3, 99, 3, 4, 4], &[0, 0, 1, 0, 1], "0"),
    ] {
        shelf.timestamp_with(Header::new(1, LATER), Listed::version(1), keys, row, answer);
    }
}

fn judging_a_new_root_by_one_row(shelf: &mut Shelf) {
    let mut new = Root::new(2, LATER);
    new.root = Role::new([7, 8], 2);
    for (held_row, own_row, answer) in [
        ([1, 0, 0], [0, 1, 1], "0"),
        ([1, 1, 1], [1, 1, 0], "10"),
        ([0, 1, 1], [1, 1, 1], "9"),
        ([0, 1, 1], [1, 0, 0], "9"),
        ([0, 0, 0], [0, 0, 0], "9"),
        ([1, 2, 1], [0, 1, 1], "5"),
        ([1, 1, 1], [0, 1, 2], "5"),
    ] {
        shelf.begin();
        shelf.root(&new, &[1, 7, 8], &held_row, &own_row, answer);
        shelf.root(&new, &[1, 7, 8], &held_row[..2], &own_row, "5");
        shelf.root(&new, &[1, 7, 8], &held_row, &own_row[1..], "5");
    }
}

fn names_with_their_escapes_or_closing_quote(shelf: &mut Shelf) {
    let names = [
        ("a", 1),
        ("a!", 1),
        ("a\"", 1),
        ("a#", 1),
        ("a[", 1),
        ("a\\", 1),
        ("a]", 1),
        ("targets.json", 1),
    ];
    shelf.begin();
    shelf.timestamp(1, 1, "0");
    shelf.snapshot(1, &names, "0");
    shelf.timestamp(2, 2, "0");
    for place in 0..names.len() {
        let mut lowered = names.map(|(name, version)| (name, version + 1));
        shelf.snapshot(2, &lowered, "0");
        lowered[place].1 = 1;
        shelf.snapshot(2, &lowered, "13");
        let mut without = names.map(|(name, version)| (name, version + 1)).to_vec();
        without.remove(place);
        let answer = if names[place].0 == "targets.json" { "3" } else { "13" };
        shelf.snapshot(2, &without, answer);
    }
    // The same names in an order that comes of comparing them with the quotation mark.
    let misplaced = snapshot_file(2, LATER, &[("a", 2), ("a!", 2), ("targets.json", 2)]);
    let misplaced = String::from_utf8(misplaced).expect("a text");
    let misplaced = misplaced.replace(
        r#""a":{"version":2},"a!":{"version":2}"#,
        r#""a!":{"version":2},"a":{"version":2}"#,
    );
    shelf.snapshot_with(misplaced.into_bytes(), &[1], "2");
}

fn skipping_roots(shelf: &mut Shelf) {
    shelf.begin();
    shelf.root(&Root::new(3, LATER), &[1, 2], &[1, 1], &[1, 1], "11");
    shelf.root(&Root::new(2, LATER), &[1, 2], &[1, 1], &[1, 1], "0 root=2");
    shelf.root(&Root::new(2, LATER), &[1, 2], &[1, 1], &[1, 1], "11 root=2");
    shelf.root(&Root::new(3, LATER), &[1, 2], &[1, 1], &[1, 1], "0 root=3");
    shelf.root(&Root::new(1, LATER), &[1, 2], &[1, 1], &[1, 1], "11 root=3");
}

fn expired_root_in_the_middle_of_the_chain(shelf: &mut Shelf) {
    shelf.begin();
    shelf.root(&Root::new(2, NOW), &[1], &[1], &[1], "0");
    shelf.timestamp(1, 1, "7");
    shelf.root(&Root::new(3, NOW - 1), &[1], &[1], &[1], "0");
    shelf.timestamp(1, 1, "7");
    shelf.root(&Root::new(4, LATER), &[1], &[1], &[1], "0");
    shelf.timestamp(1, 1, "0");
    shelf.install(&Root::new(1, NOW), &[1], &[1], NOW, "0");
    shelf.timestamp(1, 1, "7");
}

fn dividing_toward_zero_before_1970(shelf: &mut Shelf) {
    for (expires, passes, expired) in [
        (-1, -2, -1),
        (-86_401, -86_402, -86_401),
        (-86_400, -86_401, -86_400),
        (0, -1, 0),
    ] {
        for (start, answer) in [(passes, "0"), (expired, "14"), (expired + 1, "14")] {
            shelf.begin_at(i64::MIN);
            shelf.cycle(start);
            shelf.timestamp_with(Header::new(1, expires), Listed::version(1), &[3], &[1], answer);
        }
    }
}

fn blank_state(shelf: &mut Shelf) {
    let blank = "root=- timestamp=- snapshot=- targets=-";
    shelf.complete();
    shelf.install(
        &Root::new(1, LATER),
        &[1],
        &[0],
        NOW,
        &format!("10 {blank} time=-9223372036854775808"),
    );
    let steps = |shelf: &mut Shelf, time: i64| {
        let six = format!("6 {blank} time={time}");
        let five = format!("5 {blank} time={time}");
        let root = Root::new(2, LATER);
        shelf.root(&root, &[1], &[1], &[1], &six);
        shelf.root(&root, &[1], &[1], &[], &five);
        shelf.timestamp(1, 1, &six);
        shelf.snapshot(1, &[("targets.json", 1)], &six);
        shelf.snapshot_with(snapshot_file(1, LATER, &[("targets.json", 1)]), &[2], &five);
        shelf.targets(7, &six);
        shelf.targets_with(targets_file(7, LATER), &[], &five);
        shelf.find(b"image", refused(6));
        shelf.find_with(b"{}".to_vec(), b"image", refused(3));
        shelf.key(1, "6");
        shelf.script.stated(Call::Key(b"?".to_vec()), "key 6");
        shelf.state(&format!("{blank} time={time}"));
    };
    steps(shelf, i64::MIN);
    shelf.cycle(-7);
    shelf.cycle(7);
    steps(shelf, 7);
    shelf.cycle_with(6, &format!("17 {blank} time=7"));
    steps(shelf, 7);
    shelf.install(
        &Root::new(1, LATER),
        &[1],
        &[1, 1],
        NOW,
        &format!("5 {blank} time={}", i64::MIN),
    );
    steps(shelf, i64::MIN);
}

fn new_histories_and_cycles(shelf: &mut Shelf) {
    shelf.complete_at(i64::MIN);
    for time in [i64::MIN, -1, 0, NOW] {
        let held = format!("{COMPLETE} time={time}");
        shelf.cycle_with(time, &format!("0 {held}"));
        shelf.state(&held);
        shelf.find(b"image", image_found());
    }
    let highest = format!("{COMPLETE} time={}", i64::MAX);
    shelf.cycle_with(i64::MAX, &format!("0 {highest}"));
    for time in [0, -1, i64::MAX - 1, i64::MIN, NOW] {
        shelf.cycle_with(time, &format!("17 {highest}"));
        shelf.state(&highest);
    }
    shelf.install(
        &Root::new(9, LATER),
        &[1],
        &[1],
        -5,
        "0 root=9 timestamp=- snapshot=- targets=- time=-5",
    );
    shelf.find(b"image", refused(6));
    shelf.key(8, &format!("0 {}", public(8)));
    shelf.key(9, &format!("15 {}", "0".repeat(64)));
    let image = |length, sha256: Digest| Call::Image {
        found: (0, image_digest().to_vec()),
        fetched: (length, sha256.to_vec()),
    };
    shelf.script.stated(image(0, image_digest()), "image 0");
    shelf.script.stated(image(1, image_digest()), "image 8");
    shelf.script.stated(image(0, digest(b"another image")), "image 8");
}

/// A8: "A flat battery put a controller into an earlier year and it found an expired list fresh."
fn flat_battery(shelf: &mut Shelf) {
    const YEAR: i64 = 365 * 86_400;
    let held = |number: u8| format!("{number} {COMPLETE} time={LATER}");
    shelf.complete();
    shelf.find(b"image", image_found());
    shelf.cycle(LATER);
    shelf.find(b"image", refused(7));
    for earlier in [LATER - YEAR, NOW, 0, LATER - 1] {
        shelf.cycle_with(earlier, &held(17));
        shelf.find(b"image", refused(7));
        shelf.timestamp(4, 5, &held(7));
        shelf.targets(7, &held(7));
    }
    shelf.cycle_with(LATER, &held(0));

    // A root that has not expired lets a timestamp be offered; one that has expired stays so too.
    let held =
        |number: u8, timestamp: u64| format!("{number} root=2 timestamp={timestamp} snapshot=5 targets=7 time={LATER}");
    let timestamp = |shelf: &mut Shelf, expires: i64, answer: &str| {
        shelf.timestamp_with(Header::new(4, expires), Listed::version(5), &[3], &[1], answer);
    };
    shelf.root(&Root::new(2, LATER + YEAR), &[1], &[1], &[1], &held(0, 3));
    shelf.cycle_with(NOW, &held(17, 3));
    timestamp(shelf, LATER, &held(14, 3));
    timestamp(shelf, LATER + YEAR, &held(0, 4));
    shelf.cycle_with(NOW, &held(17, 4));
    shelf.find(b"image", refused(7));

    // "Install starts the record anew.": the same list is fresh again, and the clock goes back no further.
    shelf.complete();
    shelf.find(b"image", image_found());
    shelf.cycle_with(NOW - 1, &format!("17 {COMPLETE} time={NOW}"));
}

fn rotations(shelf: &mut Shelf) {
    let all = "timestamp=3 snapshot=5 targets=7";
    let none = "timestamp=- snapshot=- targets=-";
    let without_targets = "timestamp=3 snapshot=5 targets=-";
    type Change = fn(&mut Root);
    let changes: [(Change, &str); 16] = [
        (|_| (), all),
        (|root| root.root = Role::new([2, 6], 2), all),
        (|root| root.timestamp.keys = vec![3], none),
        (|root| root.timestamp.keys = vec![3, 4, 5], none),
        (|root| root.timestamp.keys = vec![4, 3], all),
        (|root| root.timestamp.threshold = 2, none),
        (|root| root.snapshot.keys = vec![5, 7], none),
        (|root| root.snapshot.keys = vec![6, 5], all),
        (|root| root.snapshot.threshold = 2, none),
        (|root| root.targets.keys = vec![7, 6], without_targets),
        (|root| root.targets.keys = vec![8, 7], all),
        (|root| root.targets.threshold = 2, without_targets),
        (|root| root.targets = Role::new([8, 7], 2), without_targets),
        (
            |root| {
                root.targets.keys = vec![1];
                root.snapshot.keys = vec![2];
            },
            none,
        ),
        (|root| root.keys.extend([(16, 16)]), all),
        (|root| root.consistent_snapshot = true, all),
    ];
    for (change, held) in changes {
        shelf.complete();
        let mut root = Root::new(2, LATER);
        change(&mut root);
        shelf.root(&root, &[1, 2, 6], &[1, 0, 0], &[0, 1, 1], &format!("0 root=2 {held}"));
    }
    // Another key under a keyid that was there is no rotation: it is refused.
    shelf.complete();
    let mut root = Root::new(2, LATER);
    root.keys.insert(3, 33);
    shelf.root(&root, &[1, 2], &[1, 1], &[1, 1], &format!("16 root=1 {all}"));
    // The keys 3, then 4, then 3 again: each is a rotation. After it lower versions are taken.
    shelf.complete();
    for (version, key) in [(2, 4), (3, 3)] {
        let mut root = Root::new(version, LATER);
        root.timestamp = Role::new([key], 1);
        shelf.root(&root, &[1], &[1], &[1], &format!("0 root={version} {none}"));
        shelf.timestamp_with(Header::new(1, LATER), Listed::version(1), &[key], &[1], "0");
    }
    shelf.snapshot(1, &[("targets.json", 1)], "0");
    shelf.targets(1, "0 root=3 timestamp=1 snapshot=1 targets=1");
}

/// A5: "We raised the timestamp threshold from one key to two after a laptop was stolen, and controllers kept a timestamp that
/// only the stolen key had signed."
fn equal_sets_and_thresholds_1_and_2(shelf: &mut Shelf) {
    const DESK: usize = 3;
    const LAPTOP: usize = 4;
    shelf.complete();
    shelf.timestamp_by(999, &[LAPTOP], "0 root=1 timestamp=999 snapshot=5 targets=7");
    shelf.timestamp_by(4, &[DESK], "11");

    // Raised: what the one key signed is gone, and it signs nothing more by itself.
    let mut root = Root::new(2, LATER);
    root.timestamp = Role::new([DESK, LAPTOP], 2);
    shelf.root(&root, &[1], &[1], &[1], "0 root=2 timestamp=- snapshot=- targets=-");
    shelf.find(b"image", refused(6));
    shelf.timestamp_by(999, &[LAPTOP], "9");
    shelf.timestamp_by(999, &[LAPTOP, LAPTOP], "9");
    shelf.timestamp_by(4, &[DESK], "9");
    shelf.timestamp_by(4, &[DESK, LAPTOP], "0 root=2 timestamp=4 snapshot=- targets=-");
    shelf.snapshot(5, &[("targets.json", 7)], "0");
    shelf.targets(7, "0 root=2 timestamp=4 snapshot=5 targets=7");
    shelf.find(b"image", image_found());

    // The same threshold again keeps everything, and a lowered one drops as a raised one does.
    root.header.version = 3;
    shelf.root(&root, &[1], &[1], &[1], "0 root=3 timestamp=4 snapshot=5 targets=7");
    root.header.version = 4;
    root.timestamp.threshold = 1;
    shelf.root(&root, &[1], &[1], &[1], "0 root=4 timestamp=- snapshot=- targets=-");
    shelf.timestamp_by(1, &[DESK], "0 root=4 timestamp=1 snapshot=- targets=-");
}

fn nothing_falls(shelf: &mut Shelf) {
    shelf.complete();
    shelf.timestamp(2, 6, "11");
    shelf.timestamp(3, 5, "12");
    shelf.timestamp(3, 4, "12");
    shelf.timestamp(4, 4, "13");
    shelf.timestamp(HIGHEST_VERSION, 6, "0");
    shelf.timestamp(HIGHEST_VERSION, 7, "12");
    shelf.snapshot(5, &[("a", 9), ("targets.json", 7)], "11");
    shelf.snapshot(7, &[("a", 9), ("targets.json", 7)], "11");
    shelf.snapshot(6, &[("targets.json", 7)], "13");
    shelf.snapshot(6, &[("b", 9), ("targets.json", 7)], "13");
    shelf.snapshot(6, &[("a", 8), ("targets.json", 7)], "13");
    shelf.snapshot(6, &[("a", 9), ("targets.json", 6)], "13");
    shelf.snapshot(6, &[("a", 10), ("b", 1), ("targets.json", 7)], "0");
    // Dropping the targets record alone lets nothing fall.
    let mut root = Root::new(2, LATER);
    root.targets = Role::new([7], 1);
    shelf.root(
        &root,
        &[1],
        &[1],
        &[1],
        &format!("0 root=2 timestamp={HIGHEST_VERSION} snapshot=6 targets=-"),
    );
    shelf.snapshot(6, &[("a", 9), ("b", 1), ("targets.json", 7)], "13");
    shelf.snapshot(6, &[("a", 10), ("b", 1), ("targets.json", 6)], "13");
    shelf.targets(6, "11");
    shelf.targets(7, "0");
}

fn current_records(shelf: &mut Shelf) {
    shelf.complete();
    shelf.find(b"image", image_found());
    shelf.find(b"a\"b\\", found(4_294_967_295, &image_digest(), 1));
    for (path, compared) in [
        (&b"a\\\"b\\\\"[..], 2),
        (b"", 1),
        (b"imag", 2),
        (b"image\0", 2),
        (b"Image", 1),
        (b"\xff", 2),
        (&[b'x'; 128], 2),
        (&[b'x'; 129], 2),
    ] {
        shelf.find(path, not_listed(compared));
    }
    shelf.timestamp(4, 5, "0");
    shelf.find(b"image", image_found());
    shelf.timestamp(5, 6, "0");
    shelf.find(b"image", refused(6));
    shelf.targets(7, "6");
    shelf.snapshot(6, &[("a", 9), ("targets.json", 8)], "0");
    shelf.find(b"image", refused(6));
    shelf.find_in(8, b"image", refused(6));
    shelf.targets(7, "11");
    shelf.targets(9, "11");
    shelf.targets(8, "0");
    shelf.find(b"image", refused(8));
    shelf.find_in(8, b"image", image_found());
    // Targets are current by their version alone.
    shelf.timestamp(6, 7, "0");
    shelf.snapshot(7, &[("a", 9), ("targets.json", 8)], "0");
    shelf.find_in(8, b"image", image_found());
    // It is the whole file that is digested: with another entry, or another member beside the signed part, it is another one.
    shelf.find_with(targets_signed_by(8, LATER, &[8]), b"image", refused(8));
    shelf.find_with(targets_signed_by(8, LATER, &[7, 8]), b"image", refused(8));
    shelf.find_with(with_more(targets_file(8, LATER)), b"image", refused(8));
}

/// The same bytes, but for an unknown member that is put behind the signed part.
fn with_more(file: Vec<u8>) -> Vec<u8> {
    [&file[..file.len() - 1], br#","~":0}"#].concat()
}

fn lowest_number(shelf: &mut Shelf) {
    // Snapshot 2 is listed; what is offered is version 1 and has expired.
    let expired = |version| snapshot_file(version, NOW, &[("targets.json", 1)]);
    let mut listed = Listed::whole(2, &expired(1));
    shelf.begin();
    shelf.timestamp_with(Header::new(1, LATER), listed.clone(), &[3], &[1], "0");
    for (file, row, answer) in [
        // Another file of the same length, also with no key that signs.
        (snapshot_file(1, NOW + 1, &[("targets.json", 1)]), 0, "8"),
        (expired(2), 1, "8"),
        (with_more(expired(1)), 1, "8"),
        (expired(1), 0, "9"),
        (expired(1), 1, "11"),
        (expired(1), 2, "5"),
    ] {
        shelf.snapshot_with(file, &[row], answer);
    }
    listed.length = Some(expired(1).len() as u64 + 1);
    shelf.timestamp_with(Header::new(2, LATER), listed, &[3], &[1], "0");
    shelf.snapshot_with(expired(1), &[0], "8");

    let sound = snapshot_file(2, LATER, &[("targets.json", 1)]);
    shelf.timestamp_with(Header::new(3, LATER), Listed::whole(2, &expired(2)), &[3], &[1], "0");
    shelf.snapshot_with(expired(2), &[1], "14");
    shelf.timestamp_with(Header::new(4, LATER), Listed::whole(2, &sound), &[3], &[1], "0");
    shelf.snapshot_with(sound.clone(), &[1], "0");
    shelf.cycle(LATER);
    shelf.snapshot_with(sound, &[0], "7");
}
