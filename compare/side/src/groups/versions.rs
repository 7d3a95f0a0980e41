//! Every place that holds a version, with numbers about the ends of the range and of the usual types. A7: "Allow versions from
//! 1 to 9,007,199,254,740,991. [..] every step, record and comparison that holds a version follows." Every answer is stated, by
//! the numbers of which its files were made.

use std::cmp::Ordering;
use std::fmt::Display;

use super::finds::{found, refused};
use super::forms::{self, Kind};
use super::told::{ACCEPTED, Told};
use crate::compare::{Cases, Group};
use crate::shelf::files::{self, HIGHEST_VERSION, Header, Listed, Root, Snapshot, Targets};
use crate::shelf::sha256::digest;
use crate::shelf::tree::{Tree, number};

const NOW: i64 = 1_000_000_000;
const LATER: i64 = 2_000_000_000;

/// A version that the office's new tool makes from a date.
const NOON: u64 = 20_260_101_120_000;

/// Versions, in rising order.
const VERSIONS: [u64; 15] = [
    1,
    2,
    (1 << 24) + 1,
    (1 << 31) - 1,
    1 << 31,
    (1 << 32) - 1,
    1 << 32,
    (1 << 32) + 1,
    (1 << 32) + 2,
    (1 << 33) + 2,
    NOON,
    NOON + 1,
    NOON + (1 << 32),
    (1 << 53) - 2,
    (1 << 53) - 1,
];

/// What is no version, and the refusal of a file that has it in the place of one.
const OTHERS: [(&str, u8); 18] = [
    ("0", BROKEN),
    ("-1", BROKEN),
    ("-20260101120000", BROKEN),
    ("-9007199254740991", BROKEN),
    ("-9223372036854775808", BROKEN),
    ("9007199254740992", BROKEN),
    ("9007199254740993", BROKEN),
    ("9223372036854775807", BROKEN),
    ("9223372036854775808", BROKEN),
    ("18446744073709551615", BROKEN),
    ("18446744073709551616", BROKEN),
    ("18446744073709551617", BROKEN),
    ("18446744073709551618", BROKEN),
    ("\"20260101120000\"", BROKEN),
    ("null", BROKEN),
    ("020260101120000", NOT_CANONICAL),
    ("20260101120000.0", NOT_CANONICAL),
    ("2e13", NOT_CANONICAL),
];

const NOT_CANONICAL: u8 = 2;
const BROKEN: u8 = 3;
/// "not held, or not current"
const NOT_CURRENT: u8 = 6;
const DIFFERS: u8 = 8;
const WRONG_VERSION: u8 = 11;
const NO_NEWS: u8 = 12;
const WENT_BACK: u8 = 13;

/// The names that snapshots list.
const NAMES: [&str; 3] = ["a.json", "targets.json", "z.json"];

/// The group.
pub fn groups() -> Vec<Group> {
    vec![Group {
        name: "versions",
        calls: &["install", "root", "timestamp", "snapshot", "targets", "find"],
        cases: |_| versions(),
        least: 9_000,
        shares: &[
            ("install 0", 10),
            ("root 3", 1),
            ("root 11", 1),
            ("timestamp 0", 10),
            ("timestamp 3", 2),
            ("timestamp 11", 1),
            ("timestamp 13", 1),
            ("snapshot 3", 5),
            ("snapshot 11", 1),
            ("snapshot 13", 2),
            ("targets 3", 1),
            ("targets 6", 1),
            ("targets 11", 1),
            ("find 0", 2),
            ("find 3", 1),
            ("find 6", 2),
        ],
        complete: &[],
        renewed: false,
    }]
}

fn versions() -> Cases {
    let parts: [fn(&mut Shelf); 13] = [
        all_four,
        first_roots,
        next_roots,
        timestamps,
        listed_snapshots,
        snapshots,
        listed_names,
        targets,
        finds,
        current_snapshots,
        current_targets,
        blank_state,
        lengths,
    ];
    Box::new(parts.into_iter().flat_map(|part| {
        let mut shelf = Shelf::default();
        part(&mut shelf);
        shelf.told.script().take()
    }))
}

/// Each file has a number of its own, and so has each name that is listed. The next root drops nothing.
fn all_four(shelf: &mut Shelf) {
    for first in 0..VERSIONS.len() {
        let version = |place: usize| VERSIONS[(first + place) % VERSIONS.len()];
        shelf.install(version(0), ACCEPTED);
        shelf.timestamp(version(1), version(2), ACCEPTED);
        shelf.snapshot(version(2), [3, 4, 5].map(version), ACCEPTED);
        shelf.targets(version(4), ACCEPTED);
        shelf.find(version(4), ACCEPTED);
        let is_last = version(0) == HIGHEST_VERSION;
        shelf.root(version(0) + 1, if is_last { BROKEN } else { ACCEPTED });
    }
}

/// The first root may have any version.
fn first_roots(shelf: &mut Shelf) {
    for version in VERSIONS {
        shelf.install(version, ACCEPTED);
    }
    for (other, answer) in OTHERS {
        shelf.install(1, ACCEPTED);
        shelf.install(other, answer);
    }
}

/// "version exactly held plus one". At the highest version there is no next root: in the range every one is 11.
fn next_roots(shelf: &mut Shelf) {
    every_pair(
        shelf,
        |shelf, held| shelf.install(held, ACCEPTED),
        |held, version| if version == held + 1 { ACCEPTED } else { WRONG_VERSION },
        |shelf, offered, answer| shelf.root(offered, answer),
    );
}

/// "Below the held version 11, equal 12"
fn timestamps(shelf: &mut Shelf) {
    every_pair(
        shelf,
        |shelf, held| {
            shelf.install(1, ACCEPTED);
            shelf.timestamp(held, 5, ACCEPTED);
        },
        |held, version| match version.cmp(&held) {
            Ordering::Less => WRONG_VERSION,
            Ordering::Equal => NO_NEWS,
            Ordering::Greater => ACCEPTED,
        },
        |shelf, offered, answer| shelf.timestamp(offered, 5, answer),
    );
}

/// "13 if its snapshot version is below the held timestamp's"
fn listed_snapshots(shelf: &mut Shelf) {
    every_pair(
        shelf,
        |shelf, held| {
            shelf.install(1, ACCEPTED);
            shelf.timestamp(3, held, ACCEPTED);
        },
        not_lower,
        |shelf, offered, answer| shelf.timestamp(4, offered, answer),
    );
}

/// "Version equals the listed one."
fn snapshots(shelf: &mut Shelf) {
    every_pair(
        shelf,
        |shelf, listed| {
            shelf.install(1, ACCEPTED);
            shelf.timestamp(3, listed, ACCEPTED);
        },
        equal,
        |shelf, offered, answer| shelf.snapshot(offered, [9, 7, 9], answer),
    );
}

/// "Every name in the held snapshot is still listed, with a version not lower." The others stay as they are.
fn listed_names(shelf: &mut Shelf) {
    for place in 0..NAMES.len() {
        let listing = |version: &str| {
            let mut listed = [NOON.to_string(), NOON.to_string(), NOON.to_string()];
            listed[place] = version.to_string();
            listed
        };
        every_pair(
            shelf,
            |shelf, held| {
                shelf.install(1, ACCEPTED);
                shelf.timestamp(3, 5, ACCEPTED);
                shelf.snapshot(5, listing(&held.to_string()), ACCEPTED);
            },
            not_lower,
            |shelf, offered, answer| shelf.snapshot(5, listing(offered), answer),
        );
    }
}

/// "Checked against the `targets.json` entry."
fn targets(shelf: &mut Shelf) {
    every_pair(
        shelf,
        |shelf, listed| {
            shelf.install(1, ACCEPTED);
            shelf.timestamp(3, 5, ACCEPTED);
            shelf.snapshot(5, [9, listed, 9], ACCEPTED);
        },
        equal,
        |shelf, offered, answer| shelf.targets(offered, answer),
    );
}

/// A file of another version than the held targets has another digest; it is read nevertheless.
fn finds(shelf: &mut Shelf) {
    every_pair(
        shelf,
        |shelf, held| shelf.complete(5, held),
        |held, version| if version == held { ACCEPTED } else { DIFFERS },
        |shelf, offered, answer| shelf.find(offered, answer),
    );
}

/// "a current snapshot, whose version is the one the held timestamp lists"
fn current_snapshots(shelf: &mut Shelf) {
    for (held, listed) in rising_pairs() {
        let answer = if listed == held { ACCEPTED } else { NOT_CURRENT };
        shelf.complete(held, 7);
        shelf.timestamp(4, listed, ACCEPTED);
        shelf.find(7, answer);
        shelf.targets(7, answer);
        shelf.snapshot(listed, [9, 7, 9], ACCEPTED);
        shelf.find(7, ACCEPTED);
    }
}

/// "current targets, whose version is the listed one"
fn current_targets(shelf: &mut Shelf) {
    for (held, listed) in rising_pairs() {
        let answer = if listed == held { ACCEPTED } else { NOT_CURRENT };
        shelf.complete(5, held);
        shelf.snapshot(5, [9, listed, 9], ACCEPTED);
        shelf.find(held, answer);
        shelf.find(listed, answer);
        shelf.targets(listed, ACCEPTED);
        shelf.find(listed, ACCEPTED);
    }
}

/// "On a blank state every step but install, new cycle and image ends at 6 unless 1 to 5 hold."
fn blank_state(shelf: &mut Shelf) {
    shelf.install(0, BROKEN);
    for (number, answer) in numbers(|_| NOT_CURRENT) {
        shelf.root(&number, answer);
        shelf.timestamp(&number, 1, answer);
        shelf.timestamp(1, &number, answer);
        shelf.snapshot(&number, [1; 3], answer);
        for place in 0..NAMES.len() {
            let mut listed = ["1"; 3];
            listed[place] = &number;
            shelf.snapshot(1, listed, answer);
        }
        shelf.targets(&number, answer);
        shelf.find(&number, answer);
    }
}

/// "Image lengths stay.": "0 to 4,294,967,295", and so do those that are listed for files.
fn lengths(shelf: &mut Shelf) {
    shelf.complete(5, 7);
    for (length, is_refused) in [
        ((1 << 32) - 1, false),
        (1 << 32, true),
        (NOON, true),
        ((1 << 53) - 1, true),
        (1 << 53, true),
    ] {
        let or_broken = |answer: u8| if is_refused { BROKEN } else { answer };
        let mut file = targets_file(7);
        *file.member(&["signed", "targets", "image", "length"]) = number(length);
        shelf.find_in(&file, or_broken(DIFFERS));
        shelf.told.offer(Kind::Targets, &file, 7, or_broken(ACCEPTED));
        for name in NAMES {
            let mut file = snapshot_file(5, [9, 7, 9]);
            let listed = file.member(&["signed", "meta", name]);
            listed.insert("length", number(length));
            shelf.told.offer(Kind::Snapshot, &file, 5, or_broken(ACCEPTED));
        }
        let mut file = timestamp_file(3, 5);
        let listed = file.member(&["signed", "meta", "snapshot.json"]);
        listed.insert("length", number(length));
        shelf.told.offer(Kind::Timestamp, &file, 3, or_broken(NO_NEWS));
    }
}

/// Every number after every version: `set` has the version held or listed, `judged` says what becomes of another version, and
/// `offer` offers the number. After an accepted one everything is set anew.
fn every_pair(
    shelf: &mut Shelf,
    set: impl Fn(&mut Shelf, u64),
    judged: impl Fn(u64, u64) -> u8,
    offer: impl Fn(&mut Shelf, &str, u8),
) {
    for held in VERSIONS {
        set(shelf, held);
        for (offered, answer) in numbers(|version| judged(held, version)) {
            offer(shelf, &offered, answer);
            if answer == ACCEPTED {
                set(shelf, held);
            }
        }
    }
}

/// Every number as it is written, and what becomes of a file that has it.
fn numbers(judged: impl Fn(u64) -> u8) -> impl Iterator<Item = (String, u8)> {
    let versions = VERSIONS.map(|version| (version.to_string(), judged(version)));
    let others = OTHERS.map(|(other, refusal)| (other.to_string(), refusal));
    others.into_iter().chain(versions)
}

fn equal(listed: u64, version: u64) -> u8 {
    if version == listed { ACCEPTED } else { WRONG_VERSION }
}

fn not_lower(held: u64, listed: u64) -> u8 {
    if listed < held { WENT_BACK } else { ACCEPTED }
}

/// Each version with itself and with every higher one.
fn rising_pairs() -> impl Iterator<Item = (u64, u64)> {
    let above = |(place, low): (usize, u64)| VERSIONS[place..].iter().map(move |high| (low, *high));
    VERSIONS.into_iter().enumerate().flat_map(above)
}

/// Files of which only the versions matter, offered one after the other.
#[derive(Default)]
struct Shelf {
    told: Told,
}

impl Shelf {
    fn install(&mut self, version: impl Display, answer: u8) {
        self.told.install(&root_file(&version), version, NOW, answer);
    }

    fn root(&mut self, version: impl Display, answer: u8) {
        self.told.offer(Kind::Root, &root_file(&version), version, answer);
    }

    fn timestamp(&mut self, version: impl Display, snapshot: impl Display, answer: u8) {
        self.told
            .offer(Kind::Timestamp, &timestamp_file(&version, snapshot), version, answer);
    }

    fn snapshot(&mut self, version: impl Display, listed: [impl Display; 3], answer: u8) {
        self.told
            .offer(Kind::Snapshot, &snapshot_file(&version, listed), version, answer);
    }

    fn targets(&mut self, version: impl Display, answer: u8) {
        self.told.offer(Kind::Targets, &targets_file(&version), version, answer);
    }

    /// Finds the image in the targets file of this version.
    fn find(&mut self, version: impl Display, answer: u8) {
        self.find_in(&targets_file(version), answer);
    }

    fn find_in(&mut self, file: &Tree, answer: u8) {
        let stated = match answer {
            ACCEPTED => found(8, &digest(b"an image"), 1),
            _ => refused(answer),
        };
        self.told.script().stated(forms::find(&file.written(), "image"), stated);
    }

    /// A file of each role becomes trusted.
    fn complete(&mut self, snapshot: u64, targets: u64) {
        self.install(1, ACCEPTED);
        self.timestamp(3, snapshot, ACCEPTED);
        self.snapshot(snapshot, [9, targets, 9], ACCEPTED);
        self.targets(targets, ACCEPTED);
        self.find(targets, ACCEPTED);
    }
}

fn root_file(version: impl Display) -> Tree {
    files::file(with_version(Root::new(1, LATER).signed(), &[], version), &[1])
}

fn timestamp_file(version: impl Display, snapshot: impl Display) -> Tree {
    let file = forms::timestamp(1, Listed::version(1));
    let file = with_version(file, &["signed"], version);
    with_version(file, &["signed", "meta", "snapshot.json"], snapshot)
}

/// A snapshot that lists [`NAMES`] with these versions.
fn snapshot_file(version: impl Display, listed: [impl Display; 3]) -> Tree {
    let snapshot = Snapshot {
        header: Header::new(1, LATER),
        meta: NAMES.map(|name| (name.to_string(), Listed::version(1))).into(),
    };
    let mut file = with_version(files::file(snapshot.signed(), &[5]), &["signed"], version);
    for (name, listed) in NAMES.into_iter().zip(listed) {
        file = with_version(file, &["signed", "meta", name], listed);
    }
    file
}

fn targets_file(version: impl Display) -> Tree {
    let targets = Targets {
        header: Header::new(1, LATER),
        targets: [("image".to_string(), (8, digest(b"an image")))].into(),
    };
    with_version(files::file(targets.signed(), &[7]), &["signed"], version)
}

/// The tree with this version, which need not be one, in the object at a place.
fn with_version(mut tree: Tree, place: &[&str], version: impl Display) -> Tree {
    *tree.member(&[place, &["version"]].concat()) = Tree::Raw(version.to_string());
    tree
}

#[cfg(test)]
mod tests {
    use super::{BROKEN, OTHERS, VERSIONS};
    use crate::shelf::files::HIGHEST_VERSION;
    use paper::json::parse;

    #[test]
    fn versions_rise_from_the_lowest_to_the_highest() {
        assert!(VERSIONS.is_sorted_by(|one, other| one < other));
        assert_eq!((VERSIONS[0], VERSIONS[VERSIONS.len() - 1]), (1, HIGHEST_VERSION));
    }

    #[test]
    fn others_are_no_versions() {
        for (other, refusal) in OTHERS {
            let number: Option<i128> = other.parse().ok();
            assert!(!number.is_some_and(|number| (1..=HIGHEST_VERSION.into()).contains(&number)) || refusal != BROKEN);
            assert_eq!(parse(other.as_bytes()).is_ok(), refusal == BROKEN, "{other}");
        }
    }
}
