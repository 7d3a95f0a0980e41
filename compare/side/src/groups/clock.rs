//! The start time. A8: "The state keeps the latest start time it has had. A new cycle with an earlier one is refused with the new
//! number 17 and changes nothing; an equal one passes. [..] Install starts the record anew." Every answer is stated, by the
//! times of which the calls were made.

use std::collections::BTreeMap;

use super::all_of;
use super::finds::{found, not_listed, refused};
use super::forms::{self, Kind};
use super::told::{ACCEPTED, Told};
use crate::calls::Call;
use crate::compare::{Cases, Group};
use crate::shelf::dates;
use crate::shelf::files::{self, Header, Listed, Role, Root, Snapshot, Targets, Timestamp, keyid, public};
use crate::shelf::sha256::digest;
use crate::shelf::tree::Tree;

const NOW: i64 = 1_000_000_000;
/// When one of the records expires, and when all others do.
const SOON: i64 = 1_500_000_000;
const LATER: i64 = 2_000_000_000;

/// Start times in rising order: about the ends of the range, of the usual types and of the dates, and about 0.
const TIMES: [i64; 28] = [
    i64::MIN,
    i64::MIN + 1,
    i64::MIN + 2,
    dates::FIRST - 1,
    dates::FIRST,
    -(1 << 32) - 1,
    -(1 << 32),
    -(1 << 31) - 1,
    -(1 << 31),
    -2,
    -1,
    0,
    1,
    2,
    NOW - 1,
    NOW,
    (1 << 31) - 1,
    1 << 31,
    (1 << 31) + 1,
    (1 << 32) - 1,
    1 << 32,
    (1 << 32) + 1,
    dates::LAST - 1,
    dates::LAST,
    dates::LAST + 1,
    i64::MAX - 2,
    i64::MAX - 1,
    i64::MAX,
];

const HELD_EXPIRED: u8 = 7;
const OFFERED_EXPIRED: u8 = 14;

const IMAGE: &[u8] = b"an image";

/// The group.
pub fn groups() -> Vec<Group> {
    vec![Group {
        name: "clock",
        calls: &[
            "text",
            "date",
            "look",
            "entry",
            "key",
            "install",
            "cycle",
            "root",
            "timestamp",
            "snapshot",
            "targets",
            "find",
            "image",
            "sha256",
            "state",
        ],
        cases: |_| clock(),
        least: 8_000,
        shares: &[("install 0", 10), ("install 10", 2), ("cycle 0", 25), ("cycle 17", 25)],
        complete: &["cycle"],
        renewed: false,
    }]
}

fn clock() -> Cases {
    // The first begins with the state that a script begins with.
    let parts: [fn(&mut Shelf); 9] = [
        first_state,
        held_records,
        expired_records,
        other_calls,
        after_every_install,
        after_every_cycle,
        on_every_blank_state,
        earlier_installs,
        refused_installs,
    ];
    let mut shelf = Shelf::default();
    for part in parts {
        part(&mut shelf);
    }
    all_of(shelf.told.script().take())
}

/// "starting from the blank state", whose start time is "the lowest signed 64-bit count"
fn first_state(shelf: &mut Shelf) {
    shelf.told.state();
    rise(shelf);
}

/// The same where all four records are held: no cycle changes them, refused or not.
fn held_records(shelf: &mut Shelf) {
    shelf.complete(i64::MIN, |_| LATER);
    rise(shelf);
    shelf.find(refused(HELD_EXPIRED));
}

/// A run of all start times. After each one every earlier one is refused, and it passes once more.
fn rise(shelf: &mut Shelf) {
    for (place, time) in TIMES.into_iter().enumerate() {
        shelf.told.cycle(time);
        for earlier in &TIMES[..place] {
            shelf.told.cycle(*earlier);
        }
        shelf.told.cycle(time);
    }
    shelf.told.state();
}

/// "A flat battery put a controller into an earlier year and it found an expired list fresh." Each of the four records in turn
/// expires before the others do, and no earlier start time makes it fresh again. A new install does.
fn expired_records(shelf: &mut Shelf) {
    for expiring in KINDS {
        let expires = |kind: Kind| if kind == expiring { SOON } else { LATER };
        shelf.complete(NOW, expires);
        shelf.told.cycle(SOON - 1);
        shelf.find(image_found());
        for time in [SOON, SOON - 1, NOW, NOW - 1, 0, -1, i64::MIN, SOON] {
            shelf.told.cycle(time);
            shelf.find(refused(HELD_EXPIRED));
            shelf.offer_expired(expiring);
        }
        shelf.complete(NOW, expires);
        shelf.find(image_found());
    }
}

/// The calls that set no start time, made while the clock stands at [`NOW`] and began before it. Each leaves it there: what was
/// refused is refused, and what passed passes.
fn other_calls(shelf: &mut Shelf) {
    const BEFORE: i64 = NOW - 10;
    for call in [ROOTS, REFUSED_ROOTS, OFFERS, REFUSED_OFFERS, QUESTIONS].concat() {
        shelf.complete(BEFORE, |_| LATER);
        shelf.told.cycle(NOW);
        call(shelf);
        for time in [NOW - 1, BEFORE, 0, i64::MIN, NOW, NOW - 1, NOW + 1, NOW] {
            shelf.told.cycle(time);
        }
    }
}

/// Makes one call, whose answer it states.
type Made = fn(&mut Shelf);

/// Roots that are accepted; all but the first rotate keys.
const ROOTS: &[Made] = &[
    |shelf| shelf.root(|_| (), &[]),
    |shelf| shelf.root(|root| root.timestamp.threshold = 2, &ALL_BUT_ROOT),
    |shelf| shelf.root(|root| root.snapshot = Role::new([6], 1), &ALL_BUT_ROOT),
    |shelf| shelf.root(|root| root.targets = Role::new([8], 1), &[Kind::Targets]),
];

const REFUSED_ROOTS: &[Made] = &[
    |shelf| shelf.told.offer(Kind::Root, &root_file(1, LATER), 1, 11),
    |shelf| shelf.told.offer(Kind::Root, &root_file(3, LATER), 3, 11),
    |shelf| shelf.told.offer(Kind::Root, &root_file(0, LATER), 0, 3),
    |shelf| shelf.told.offer(Kind::Root, &root_by(2, &[8]), 2, 9),
];

const OFFERS: &[Made] = &[
    |shelf| shelf.timestamp(4, 6, LATER, ACCEPTED),
    |shelf| shelf.snapshot(5, 8, LATER, ACCEPTED),
    |shelf| shelf.targets(7, LATER - 1, ACCEPTED),
];

const REFUSED_OFFERS: &[Made] = &[
    |shelf| shelf.timestamp(2, 6, LATER, 11),
    |shelf| shelf.timestamp(3, 6, LATER, 12),
    |shelf| shelf.timestamp(4, 4, LATER, 13),
    |shelf| shelf.timestamp(4, 6, NOW, OFFERED_EXPIRED),
    |shelf| shelf.snapshot(6, 8, LATER, 11),
    |shelf| shelf.snapshot(5, 6, LATER, 13),
    |shelf| shelf.snapshot(5, 8, NOW, OFFERED_EXPIRED),
    |shelf| shelf.targets(8, LATER, 11),
    |shelf| shelf.targets(7, NOW, OFFERED_EXPIRED),
];

/// Calls that are given the state and return none, and those that are given none.
const QUESTIONS: &[Made] = &[
    |shelf| shelf.find(image_found()),
    |shelf| shelf.ask(forms::find(&targets_file(7, LATER).written(), "other"), not_listed(1)),
    |shelf| shelf.ask(forms::find(&targets_file(8, LATER).written(), "image"), refused(8)),
    |shelf| shelf.ask(Call::Key(keyid(1).into()), format!("key 0 {}", public(1))),
    |shelf| shelf.ask(Call::Key(keyid(9).into()), "key 15"),
    |shelf| shelf.told.state(),
    |shelf| shelf.ask(Call::Text(b"{}".to_vec()), "text 0"),
    |shelf| shelf.ask(Call::Date(b"1985-10-21T01:21:00Z".to_vec()), "date 498705660"),
    |shelf| shelf.ask(Call::Look(root_file(2, LATER).written()), "look 0"),
    |shelf| {
        let file = root_file(2, LATER).written();
        shelf.ask(Call::Entry { file, place: 1 }, "entry 15");
    },
    |shelf| {
        let found = (8, digest(IMAGE).to_vec());
        let fetched = found.clone();
        shelf.ask(Call::Image { found, fetched }, "image 0");
    },
    |shelf| {
        let empty = "e3b0c44298fc1c149afbf4c8996fb92427ae41e4649b934ca495991b7852b855";
        shelf.ask(Call::Sha256(Vec::new()), format!("sha256 {empty}"));
    },
];

/// An accepted install sets the record.
fn after_every_install(shelf: &mut Shelf) {
    every_pair(shelf, Shelf::install);
}

/// So does an accepted cycle: it is not the installed time that is compared with.
fn after_every_cycle(shelf: &mut Shelf) {
    every_pair(shelf, |shelf, latest| {
        shelf.install(i64::MIN);
        shelf.told.cycle(latest);
    });
}

/// "A cycle on a blank state sets only that time." The first one may be any, and from there the same rule holds.
fn on_every_blank_state(shelf: &mut Shelf) {
    every_pair(shelf, |shelf, latest| {
        shelf.install_refused();
        shelf.told.cycle(latest);
    });
}

/// Each start time after each: `set` has the first one in force, and after another one was accepted it is set anew.
fn every_pair(shelf: &mut Shelf, set: impl Fn(&mut Shelf, i64)) {
    for latest in TIMES {
        set(shelf, latest);
        for time in TIMES {
            shelf.told.cycle(time);
            if shelf.told.time() != latest {
                set(shelf, latest);
            }
        }
    }
}

/// "Install starts the record anew." After each latest start time a root is installed at every one that is not later. That one
/// passes then, and the second before it is refused where there is one.
fn earlier_installs(shelf: &mut Shelf) {
    shelf.install(i64::MIN);
    for (place, latest) in TIMES.into_iter().enumerate() {
        for start in &TIMES[..=place] {
            shelf.told.cycle(latest);
            shelf.install(*start);
            shelf.told.cycle(start.saturating_sub(1));
            shelf.told.cycle(*start);
        }
    }
}

/// "a refused one returns the blank state", whatever it is refused for and whatever its own start time. Nothing is left of the
/// record then.
fn refused_installs(shelf: &mut Shelf) {
    for latest in TIMES {
        for (file, number) in [(root_by(1, &[8]), 10), (root_file(0, LATER), 3)] {
            for time in [i64::MIN, NOW, i64::MAX] {
                shelf.install(i64::MIN);
                shelf.told.cycle(latest);
                shelf.told.install(&file, 1, time, number);
                shelf.told.cycle(latest.saturating_sub(1));
            }
        }
    }
}

const KINDS: [Kind; 4] = [Kind::Root, Kind::Timestamp, Kind::Snapshot, Kind::Targets];

/// What a root drops that rotates the keys of timestamps or snapshots.
const ALL_BUT_ROOT: [Kind; 3] = [Kind::Timestamp, Kind::Snapshot, Kind::Targets];

/// Files of one publisher, offered one after the other.
#[derive(Default)]
struct Shelf {
    told: Told,
    /// The targets file that was accepted last.
    list: Vec<u8>,
}

impl Shelf {
    fn install(&mut self, time: i64) {
        self.told.install(&root_file(1, LATER), 1, time, ACCEPTED);
    }

    /// A root without a signature that counts.
    fn install_refused(&mut self) {
        self.told.install(&root_by(1, &[8]), 1, NOW, 10);
    }

    /// Holds timestamp 3, snapshot 5 and targets 7.
    fn complete(&mut self, time: i64, expires: impl Fn(Kind) -> i64) {
        let root = root_file(1, expires(Kind::Root));
        self.told.install(&root, 1, time, ACCEPTED);
        self.timestamp(3, 5, expires(Kind::Timestamp), ACCEPTED);
        self.snapshot(5, 7, expires(Kind::Snapshot), ACCEPTED);
        self.targets(7, expires(Kind::Targets), ACCEPTED);
    }

    /// Offers a second root that has something else, and drops records by it.
    fn root(&mut self, change: fn(&mut Root), dropped: &[Kind]) {
        let mut root = Root::new(2, LATER);
        change(&mut root);
        let file = files::file(root.signed(), &[1]);
        self.told.offer_rotating(&file, 2, dropped);
    }

    fn timestamp(&mut self, version: u64, snapshot: u64, expires: i64, answer: u8) {
        let timestamp = Timestamp {
            header: Header::new(version, expires),
            snapshot: Listed::version(snapshot),
        };
        let file = files::file(timestamp.signed(), &[3]);
        self.told.offer(Kind::Timestamp, &file, version, answer);
    }

    fn snapshot(&mut self, version: u64, targets: u64, expires: i64, answer: u8) {
        let snapshot = Snapshot {
            header: Header::new(version, expires),
            meta: BTreeMap::from([("targets.json".to_string(), Listed::version(targets))]),
        };
        let file = files::file(snapshot.signed(), &[5]);
        self.told.offer(Kind::Snapshot, &file, version, answer);
    }

    fn targets(&mut self, version: u64, expires: i64, answer: u8) {
        let file = targets_file(version, expires);
        self.told.offer(Kind::Targets, &file, version, answer);
        if answer == ACCEPTED {
            self.list = file.written();
        }
    }

    /// Offers files of the roles that lean on the record that expires [`SOON`], and one of its own role that does so too.
    fn offer_expired(&mut self, expiring: Kind) {
        for kind in &KINDS[expiring as usize..] {
            let (expires, answer) = match *kind == expiring {
                true => (SOON, OFFERED_EXPIRED),
                false => (LATER, HELD_EXPIRED),
            };
            match kind {
                // "Expiry does not matter here."
                Kind::Root => {}
                Kind::Timestamp => self.timestamp(4, 5, expires, answer),
                Kind::Snapshot => self.snapshot(5, 7, expires, answer),
                Kind::Targets => self.targets(7, expires, answer),
            }
        }
    }

    /// Looks for the image in that file.
    fn find(&mut self, answer: String) {
        let call = forms::find(&self.list, "image");
        self.ask(call, answer);
    }

    fn ask(&mut self, call: Call, answer: impl Into<String>) {
        self.told.script().stated(call, answer);
    }
}

fn image_found() -> String {
    found(8, &digest(IMAGE), 1)
}

fn root_file(version: u64, expires: i64) -> Tree {
    files::file(Root::new(version, expires).signed(), &[1])
}

/// A root signed by these keys.
fn root_by(version: u64, keys: &[usize]) -> Tree {
    files::file(Root::new(version, LATER).signed(), keys)
}

fn targets_file(version: u64, expires: i64) -> Tree {
    let targets = Targets {
        header: Header::new(version, expires),
        targets: BTreeMap::from([("image".to_string(), (8, digest(IMAGE)))]),
    };
    files::file(targets.signed(), &[7])
}

#[cfg(test)]
mod tests {
    use super::TIMES;

    #[test]
    fn times_rise_from_the_lowest_to_the_highest() {
        assert!(TIMES.is_sorted_by(|one, other| one < other));
        assert_eq!((TIMES[0], TIMES[TIMES.len() - 1]), (i64::MIN, i64::MAX));
    }
}
