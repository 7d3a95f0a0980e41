//! Versions from 1 to 9,007,199,254,740,991 (change request A7), in every place of a file that holds one, and each comparison of two of
//! them. Derived by hand from document 01 and A7.

mod small;

use gronwythal::{Refusal, State};
use small::{FAR, GOOD, accepted, assert_refused, changed, root, snapshot_of, targets, timestamp};
use std::cmp::Ordering;
use std::fmt::Display;

const HIGHEST: u64 = 9_007_199_254_740_991;

/// Both ends, both sides of the limit before A7 and of 32 bits, two that differ from 1 and 2 in the upper 32 bits alone, and one made from
/// a date.
const VERSIONS: [u64; 11] = [
    1,
    2,
    2_147_483_647,
    2_147_483_648,
    4_294_967_295,
    4_294_967_296,
    4_294_967_297,
    4_294_967_298,
    20_260_101_120_000,
    HIGHEST - 1,
    HIGHEST,
];

/// Outside the range. The last three would be 0, 1 and 2 to a reader that wraps at 64 bits.
const NOT_VERSIONS: [i128; 9] = [
    -1,
    0,
    9_007_199_254_740_992,
    9_007_199_254_740_993,
    9_223_372_036_854_775_807,
    18_446_744_073_709_551_615,
    18_446_744_073_709_551_616,
    18_446_744_073_709_551_617,
    18_446_744_073_709_551_618,
];

// ---- Files and states, in which every version that is not asked for is 1

fn snapshot(version: impl Display) -> Vec<u8> {
    snapshot_of(version, "", 1, FAR)
}

/// A snapshot that lists another name with that version.
fn snapshot_naming(other: impl Display) -> Vec<u8> {
    snapshot_of(1, &format!(r#""other.json":{{"version":{other}}},"#), 1, FAR)
}

fn snapshot_listing(targets: impl Display) -> Vec<u8> {
    snapshot_of(1, "", targets, FAR)
}

fn installed(version: u64) -> State {
    State::install(&root(version), GOOD, 0).unwrap()
}

/// The state after that timestamp.
fn with_timestamp(version: u64, snapshot: u64) -> State {
    accepted(&installed(1), |s| s.timestamp(&timestamp(version, snapshot, FAR), GOOD))
}

/// The state after that snapshot, of version 1.
fn with_snapshot(file: &[u8]) -> State {
    accepted(&with_timestamp(1, 1), |s| s.snapshot(file, GOOD))
}

/// The held versions of root, timestamp, snapshot and targets.
fn held(state: &State) -> [Option<u64>; 4] {
    let versions = state.versions();
    [versions.root, versions.timestamp, versions.snapshot, versions.targets]
}

// ---- Each place that holds a version

#[test]
fn of_the_first_root() {
    for version in VERSIONS {
        assert_eq!(held(&installed(version)), [Some(version), None, None, None]);
    }
    for version in NOT_VERSIONS {
        let refused = State::install(&root(version), GOOD, 0).unwrap_err();
        assert_eq!(refused, Refusal::BadForm, "{version}");
    }
}

/// Where the highest version is held, no next root exists: every version is 11, and 9,007,199,254,740,992 is 3.
#[test]
fn of_the_next_root() {
    for version in VERSIONS {
        let mut state = installed(version);
        if version != HIGHEST {
            let next = accepted(&state, |s| s.root(&root(version + 1), GOOD, GOOD));
            assert_eq!(held(&next), [Some(version + 1), None, None, None]);
        }
        for other in VERSIONS.into_iter().filter(|other| *other != version + 1) {
            assert_refused(11, &mut state, |s| s.root(&root(other), GOOD, GOOD));
        }
        for other in NOT_VERSIONS {
            assert_refused(3, &mut state, |s| s.root(&root(other), GOOD, GOOD));
        }
    }
}

#[test]
fn of_a_timestamp() {
    for version in VERSIONS {
        let mut state = with_timestamp(version, 1);
        assert_eq!(held(&state), [Some(1), Some(version), None, None]);
        for other in VERSIONS {
            let file = timestamp(other, 1, FAR);
            match other.cmp(&version) {
                Ordering::Less => assert_refused(11, &mut state, |s| s.timestamp(&file, GOOD)),
                Ordering::Equal => assert_refused(12, &mut state, |s| s.timestamp(&file, GOOD)),
                Ordering::Greater => {
                    let next = accepted(&state, |s| s.timestamp(&file, GOOD));
                    assert_eq!(held(&next), [Some(1), Some(other), None, None]);
                }
            }
        }
        for other in NOT_VERSIONS {
            assert_refused(3, &mut state, |s| s.timestamp(&timestamp(other, 1, FAR), GOOD));
        }
    }
}

#[test]
fn of_the_snapshot_that_a_timestamp_lists() {
    for version in VERSIONS {
        let mut state = with_timestamp(1, version);
        for other in VERSIONS {
            let file = timestamp(2, other, FAR);
            if other < version {
                assert_refused(13, &mut state, |s| s.timestamp(&file, GOOD));
            } else {
                let next = accepted(&state, |s| s.timestamp(&file, GOOD));
                assert_eq!(held(&next), [Some(1), Some(2), None, None]);
            }
        }
        for other in NOT_VERSIONS {
            assert_refused(3, &mut state, |s| s.timestamp(&timestamp(2, other, FAR), GOOD));
        }
    }
}

#[test]
fn of_a_snapshot() {
    for version in VERSIONS {
        let mut state = with_timestamp(1, version);
        for other in VERSIONS.into_iter().filter(|other| *other != version) {
            assert_refused(11, &mut state, |s| s.snapshot(&snapshot(other), GOOD));
        }
        for other in NOT_VERSIONS {
            assert_refused(3, &mut state, |s| s.snapshot(&snapshot(other), GOOD));
        }
        let next = accepted(&state, |s| s.snapshot(&snapshot(version), GOOD));
        assert_eq!(held(&next), [Some(1), Some(1), Some(version), None]);
    }
}

/// A snapshot with one version in question, once held and once offered: a lower one is 13.
fn of_a_name_in_a_snapshot(listing: impl Fn(i128) -> Vec<u8>) {
    for version in VERSIONS {
        let mut state = with_snapshot(&listing(version.into()));
        assert_eq!(held(&state), [Some(1), Some(1), Some(1), None]);
        for other in VERSIONS {
            let file = listing(other.into());
            if other < version {
                assert_refused(13, &mut state, |s| s.snapshot(&file, GOOD));
            } else {
                let next = accepted(&state, |s| s.snapshot(&file, GOOD));
                assert_eq!(held(&next), held(&state));
            }
        }
        for other in NOT_VERSIONS {
            assert_refused(3, &mut state, |s| s.snapshot(&listing(other), GOOD));
        }
    }
}

#[test]
fn of_the_targets_file_that_a_snapshot_lists() {
    of_a_name_in_a_snapshot(snapshot_listing);
}

#[test]
fn of_another_name_that_a_snapshot_lists() {
    of_a_name_in_a_snapshot(snapshot_naming);
}

#[test]
fn of_a_targets_file() {
    for version in VERSIONS {
        let mut state = with_snapshot(&snapshot_listing(version));
        for other in VERSIONS.into_iter().filter(|other| *other != version) {
            assert_refused(11, &mut state, |s| s.targets(&targets(other, FAR), GOOD));
        }
        for other in NOT_VERSIONS {
            assert_refused(3, &mut state, |s| s.targets(&targets(other, FAR), GOOD));
        }
        let next = accepted(&state, |s| s.targets(&targets(version, FAR), GOOD));
        assert_eq!(held(&next), [Some(1), Some(1), Some(1), Some(version)]);
    }
}

#[test]
fn of_the_targets_file_that_find_is_given() {
    for version in VERSIONS {
        let listed = with_snapshot(&snapshot_listing(version));
        let state = accepted(&listed, |s| s.targets(&targets(version, FAR), GOOD));
        for other in VERSIONS {
            let length = state.find(&targets(other, FAR), b"i").map(|image| image.length);
            let stated = if other == version {
                Ok(5)
            } else {
                Err(Refusal::OtherContent)
            };
            assert_eq!(length, stated, "{version} and {other}");
        }
        for other in NOT_VERSIONS {
            assert_eq!(state.find(&targets(other, FAR), b"i"), Err(Refusal::BadForm), "{other}");
        }
    }
}

// ---- Whole updates

/// Every version of the update is the same. The last time it is the highest.
#[test]
fn of_all_files_at_once() {
    for version in VERSIONS {
        let list = targets(version, FAR);
        let names = format!(r#""other.json":{{"version":{version}}},"#);
        let mut state = installed(version);
        assert_eq!(state.timestamp(&timestamp(version, version, FAR), GOOD), Ok(()));
        assert_eq!(held(&state), [Some(version), Some(version), None, None]);
        assert_eq!(
            state.snapshot(&snapshot_of(version, &names, version, FAR), GOOD),
            Ok(())
        );
        assert_eq!(held(&state), [Some(version), Some(version), Some(version), None]);
        assert_eq!(state.targets(&list, GOOD), Ok(()));
        assert_eq!(held(&state), [Some(version); 4]);
        let image = state.find(&list, b"i").unwrap();
        assert_eq!((image.length, image.digest), (5, [0x11; 32]));
    }
}

/// A snapshot that is no longer the listed one is not current.
#[test]
fn a_held_snapshot_is_current_while_its_version_is_listed() {
    let list = targets(1, FAR);
    for version in VERSIONS {
        let state = accepted(&with_timestamp(1, version), |s| s.snapshot(&snapshot(version), GOOD));
        let state = accepted(&state, |s| s.targets(&list, GOOD));
        for other in VERSIONS.into_iter().filter(|other| *other > version) {
            let mut later = accepted(&state, |s| s.timestamp(&timestamp(2, other, FAR), GOOD));
            assert_refused(6, &mut later, |s| s.targets(&list, GOOD));
            assert_eq!(later.find(&list, b"i"), Err(Refusal::NotHeld));
        }
        let same = accepted(&state, |s| s.timestamp(&timestamp(2, version, FAR), GOOD));
        assert!(same.find(&list, b"i").is_ok());
        accepted(&same, |s| s.targets(&list, GOOD));
    }
}

/// Nor is a targets file.
#[test]
fn a_held_targets_file_is_current_while_its_version_is_listed() {
    for version in VERSIONS {
        let list = targets(version, FAR);
        let state = accepted(&with_snapshot(&snapshot_listing(version)), |s| s.targets(&list, GOOD));
        for other in VERSIONS.into_iter().filter(|other| *other > version) {
            let later = accepted(&state, |s| s.snapshot(&snapshot_listing(other), GOOD));
            assert_eq!(later.find(&list, b"i"), Err(Refusal::NotHeld));
        }
        let same = accepted(&state, |s| s.snapshot(&snapshot_listing(version), GOOD));
        assert!(same.find(&list, b"i").is_ok());
    }
}

// ---- Lengths: 0 to 4,294,967,295, as before A7

const LONGEST: u64 = 4_294_967_295;
const NOT_LENGTHS: [i128; 6] = [
    -1,
    4_294_967_296,
    20_260_101_120_000,
    9_007_199_254_740_991,
    9_007_199_254_740_992,
    18_446_744_073_709_551_616,
];

/// The file with a length beside the first version that it lists, which is 1.
fn with_length(file: Vec<u8>, length: i128) -> Vec<u8> {
    changed(
        file,
        r#"{"version":1}"#,
        &format!(r#"{{"length":{length},"version":1}}"#),
    )
}

#[test]
fn a_length_that_a_timestamp_lists() {
    let file = |length| with_length(timestamp(1, 1, FAR), length);
    for length in [0, LONGEST] {
        let mut state = accepted(&installed(1), |s| s.timestamp(&file(length.into()), GOOD));
        assert_refused(8, &mut state, |s| s.snapshot(&snapshot(1), GOOD));
    }
    for length in NOT_LENGTHS {
        assert_refused(3, &mut installed(1), |s| s.timestamp(&file(length), GOOD));
    }
}

#[test]
fn a_length_that_a_snapshot_lists() {
    let file = |length| with_length(snapshot(1), length);
    let other = |length| with_length(snapshot_naming(1), length);
    for length in [0, LONGEST] {
        let mut state = with_snapshot(&file(length.into()));
        assert_refused(8, &mut state, |s| s.targets(&targets(1, FAR), GOOD));
        let state = with_snapshot(&other(length.into()));
        accepted(&state, |s| s.targets(&targets(1, FAR), GOOD));
    }
    for length in NOT_LENGTHS {
        assert_refused(3, &mut with_timestamp(1, 1), |s| s.snapshot(&file(length), GOOD));
        assert_refused(3, &mut with_timestamp(1, 1), |s| s.snapshot(&other(length), GOOD));
    }
}

#[test]
fn a_length_of_an_image() {
    let file = |length: i128| changed(targets(1, FAR), r#""length":5"#, &format!(r#""length":{length}"#));
    let state = with_snapshot(&snapshot(1));
    for length in [0, LONGEST] {
        let list = file(length.into());
        let state = accepted(&state, |s| s.targets(&list, GOOD));
        assert_eq!(state.find(&list, b"i").unwrap().length, length);
    }
    for length in NOT_LENGTHS {
        assert_refused(3, &mut state.clone(), |s| s.targets(&file(length), GOOD));
    }
}
