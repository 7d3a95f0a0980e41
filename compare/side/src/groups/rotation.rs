//! What an accepted root drops. A5: "a role is rotated when its set of keyids or its threshold differs, for timestamp, snapshot
//! and targets alike". Every answer is stated, by the way in which the two roots were made.

use std::collections::BTreeMap;
use std::ops::RangeInclusive;

use super::Recorder;
use super::finds::{found, refused};
use crate::calls::Call;
use crate::compare::{Cases, Group};
use crate::shelf::files::{self, Header, Listed, Role, Root, Snapshot, Targets, Timestamp};
use crate::shelf::sha256::digest;
use crate::shelf::tree::Tree;

const NOW: i64 = 1_000_000_000;
const LATER: i64 = 2_000_000_000;

/// The key table of every root. All of its keys sign every file, so that no answer depends on them.
const KEYS: RangeInclusive<usize> = 1..=11;

const IMAGE: &[u8] = b"an image";

/// What is held before the second root, and what is left after it.
const ALL: &str = "timestamp=3 snapshot=5 targets=7";
const WITHOUT_TARGETS: &str = "timestamp=3 snapshot=5 targets=-";
const NONE: &str = "timestamp=- snapshot=- targets=-";

/// The group.
pub fn groups() -> Vec<Group> {
    vec![Group {
        name: "rotation",
        calls: &["install", "root", "timestamp", "snapshot", "targets", "find"],
        cases: |_| rotation(),
        least: 7_000,
        shares: &[("root 0", 10), ("find 0", 1), ("find 6", 10)],
        complete: &[],
        renewed: false,
    }]
}

fn rotation() -> Cases {
    let parts: [fn(&mut Recorder); 2] = [every_pair, every_mixture];
    Box::new(parts.into_iter().flat_map(|part| {
        let mut script = Recorder::default();
        part(&mut script);
        script.take()
    }))
}

/// One role after the other is each of [`every_role`] in the first root, and each in the second, there with its keys in another
/// order: it is rotated unless it is the same one.
fn every_pair(script: &mut Recorder) {
    type Part = fn(&mut Root) -> &mut Role;
    let parts: [(Part, &str); 4] = [
        (|root| &mut root.root, ALL),
        (|root| &mut root.timestamp, NONE),
        (|root| &mut root.snapshot, NONE),
        (|root| &mut root.targets, WITHOUT_TARGETS),
    ];
    let roles = every_role([9, 10, 11]);
    for (part, left) in parts {
        for (old, before) in roles.iter().enumerate() {
            for (new, after) in roles.iter().enumerate() {
                let (mut first, mut second) = (root(1), root(2));
                *part(&mut first) = before.clone();
                *part(&mut second) = after.clone();
                part(&mut second).keys.reverse();
                tried(script, &first, &second, if old == new { ALL } else { left });
            }
        }
    }
}

/// Each set of these keys but the empty one with each threshold that it may have. No two of them are the same role.
fn every_role(keys: [usize; 3]) -> Vec<Role> {
    let mut roles = Vec::new();
    for bits in 1..1_usize << keys.len() {
        let places = (0..keys.len()).filter(|place| (bits >> place) & 1 == 1);
        let set: Vec<usize> = places.map(|place| keys[place]).collect();
        for threshold in 1..=set.len() {
            roles.push(Role::new(set.clone(), threshold as u64));
        }
    }
    roles
}

/// The four roles, each of two keys of which one is enough, change in every mixture of these ways, some of which are rotations.
fn every_mixture(script: &mut Recorder) {
    type Change = fn(&mut Role);
    const CHANGES: [(Change, bool); 5] = [
        (|_| (), false),
        (|role| role.keys.reverse(), false),
        (|role| role.threshold = 2, true),
        (|role| role.keys[0] = 9, true),
        (|role| *role = Role::new([role.keys[0], role.keys[1], 10], 2), true),
    ];
    for number in 0..CHANGES.len().pow(4) {
        let change = |place: u32| CHANGES[number / CHANGES.len().pow(place) % CHANGES.len()];
        let mut second = root(2);
        change(0).0(&mut second.root);
        change(1).0(&mut second.timestamp);
        change(2).0(&mut second.snapshot);
        change(3).0(&mut second.targets);
        let left = match (change(1).1 || change(2).1, change(3).1) {
            (true, _) => NONE,
            (false, true) => WITHOUT_TARGETS,
            (false, false) => ALL,
        };
        tried(script, &root(1), &second, left);
    }
}

/// One key of two is enough for each role.
fn root(version: u64) -> Root {
    let mut root = Root::new(version, LATER);
    root.keys = KEYS.map(|key| (key, key)).collect();
    root
}

/// The second root leaves so many of the records that are held under the first.
fn tried(script: &mut Recorder, first: &Root, second: &Root, left: &str) {
    let targets = complete(script, first);
    let call = Call::Root {
        file: signed(second.signed()),
        held_row: row(),
        own_row: row(),
    };
    script.stated(call, format!("root 0 root=2 {left} time={NOW}"));
    let call = Call::Find {
        file: targets,
        path: b"image".to_vec(),
    };
    let answer = match left {
        ALL => found(8, &digest(IMAGE), 1),
        _ => refused(6),
    };
    script.stated(call, answer);
}

/// The root is installed, and a file of each other role becomes trusted. Gives the targets file.
fn complete(script: &mut Recorder, root: &Root) -> Vec<u8> {
    let install = Call::Install {
        file: signed(root.signed()),
        row: row(),
        time: NOW,
    };
    script.stated(install, "install 0");
    let timestamp = Timestamp {
        header: Header::new(3, LATER),
        snapshot: Listed::version(5),
    };
    let file = signed(timestamp.signed());
    script.stated(Call::Timestamp { file, row: row() }, "timestamp 0");
    let snapshot = Snapshot {
        header: Header::new(5, LATER),
        meta: BTreeMap::from([("targets.json".to_string(), Listed::version(7))]),
    };
    let file = signed(snapshot.signed());
    script.stated(Call::Snapshot { file, row: row() }, "snapshot 0");
    let targets = Targets {
        header: Header::new(7, LATER),
        targets: BTreeMap::from([("image".to_string(), (8, digest(IMAGE)))]),
    };
    let file = signed(targets.signed());
    let call = Call::Targets {
        file: file.clone(),
        row: row(),
    };
    script.stated(call, format!("targets 0 root=1 {ALL} time={NOW}"));
    file
}

fn signed(part: Tree) -> Vec<u8> {
    files::file(part, &KEYS.collect::<Vec<_>>()).written()
}

fn row() -> Vec<u8> {
    vec![1; KEYS.count()]
}

#[cfg(test)]
mod tests {
    use super::every_role;

    #[test]
    fn roles_are_all_and_different() {
        let roles = every_role([9, 10, 11]);
        assert_eq!(roles.len(), 12);
        for (number, role) in roles.iter().enumerate() {
            assert!((1..=role.keys.len()).contains(&(role.threshold as usize)));
            assert!(!roles[..number].contains(role));
        }
    }
}
