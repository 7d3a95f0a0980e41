//! The cases that document 01 names, and the steps in their order.

use crate::envelope;
use crate::forms;
use crate::hex;
use crate::refusal::Refusal::{self, *};
use crate::sha256;
use crate::shelf::{self, EXPIRES, EXPIRY, NOW, Root, digest, file, key_text, keyid, keyid_of, public};
use crate::state::{Found, State, image};

/// A state that holds this root alone.
fn installed(root: &Root) -> State {
    installed_at(root, NOW)
}

fn installed_at(root: &Root, start: i64) -> State {
    State::install(&root.file(&[1, 2]), &[1, 1], start).unwrap()
}

/// A state that holds a timestamp 3, a snapshot 5 with `a` at 9, and targets 7.
fn complete() -> State {
    let mut state = installed(&Root::new(1));
    assert_eq!(state.timestamp(&timestamp_file(3, 5), &[1]), Ok(()));
    assert_eq!(
        state.snapshot(&snapshot_file(5, &[("a", 9), ("targets.json", 7)]), &[1]),
        Ok(())
    );
    assert_eq!(state.targets(&targets_file(7), &[1]), Ok(()));
    state
}

fn timestamp_file(version: u64, snapshot: u64) -> Vec<u8> {
    file(
        &[5],
        &shelf::timestamp(version, EXPIRES, &format!(r#""version":{snapshot}"#)),
    )
}

fn snapshot_file(version: u64, names: &[(&str, u64)]) -> Vec<u8> {
    snapshot_expiring(version, EXPIRES, names)
}

fn snapshot_expiring(version: u64, expires: &str, names: &[(&str, u64)]) -> Vec<u8> {
    let listed: Vec<String> = names
        .iter()
        .map(|(name, version)| format!(r#""{name}":{{"version":{version}}}"#))
        .collect();
    file(&[3], &shelf::snapshot(version, expires, &listed.join(",")))
}

fn targets_file(version: u64) -> Vec<u8> {
    let sha256 = hex::written(&digest(1));
    let table = [
        shelf::target(r#"a\"b\\"#, 4_294_967_295, &sha256),
        shelf::target("image", 0, &sha256),
    ];
    file(&[4], &shelf::targets(version, EXPIRES, &table.join(",")))
}

/// A keyid that is off by one digit.
fn last_digit_changed(keyid: &str) -> String {
    digit_changed(keyid, 63)
}

fn digit_changed(keyid: &str, place: usize) -> String {
    let other = if &keyid[place..=place] == "0" { "1" } else { "0" };
    format!("{}{other}{}", &keyid[..place], &keyid[place + 1..])
}

/// The file, made longer by a member that is passed over.
fn padded(file: &[u8], length: usize) -> Vec<u8> {
    let rest = length - file.len() - r#","z":"""#.len();
    [&file[..file.len() - 1], br#","z":""#, &vec![b'x'; rest], b"\"}"].concat()
}

/// What is found in targets 7.
fn found(state: &State, path: &[u8]) -> Result<(u64, String), Refusal> {
    found_in(state, 7, path)
}

fn found_in(state: &State, version: u64, path: &[u8]) -> Result<(u64, String), Refusal> {
    let target = state.find(&targets_file(version), path).image?;
    Ok((target.length, target.sha256))
}

mod files_to_try {
    use super::*;

    #[test]
    fn two_valid_entries_of_one_key_count_1() {
        let mut root = Root::new(1);
        root.root.1 = 2;
        assert_eq!(State::install(&root.file(&[1, 1]), &[1, 1], NOW), Err(TooFewOwnKeys));
        assert_eq!(
            State::install(&root.file(&[1, 1, 2]), &[1, 1, 0], NOW),
            Err(TooFewOwnKeys)
        );
        assert!(State::install(&root.file(&[1, 1, 2]), &[0, 1, 1], NOW).is_ok());
    }

    #[test]
    fn held_root_4() {
        for (version, answer) in [
            (4, Err(WrongVersion)),
            (6, Err(WrongVersion)),
            (1, Err(WrongVersion)),
            (5, Ok(())),
        ] {
            let mut state = installed(&Root::new(4));
            assert_eq!(
                state.root(&Root::new(version).file(&[1]), &[1], &[1]),
                answer,
                "{version}"
            );
        }
    }

    /// 01's case "Held 2,147,483,647: no next root exists", with A7's largest version.
    #[test]
    fn no_next_root_after_9007199254740991() {
        let highest = 9_007_199_254_740_991;
        let mut state = installed(&Root::new(highest - 1));
        assert_eq!(state.root(&Root::new(highest).file(&[1]), &[1], &[1]), Ok(()));
        assert_eq!(
            state.root(&Root::new(highest).file(&[1]), &[1], &[1]),
            Err(WrongVersion)
        );
        assert_eq!(
            state.root(&Root::new(highest + 1).file(&[1]), &[1], &[1]),
            Err(BrokenForm)
        );
    }

    /// A7: "The office's new tool numbers files like 20260101120000". Held 2,147,483,647 has a next root now.
    #[test]
    fn versions_made_from_dates() {
        let mut state = installed(&Root::new(2_147_483_647));
        assert_eq!(state.root(&Root::new(2_147_483_648).file(&[1]), &[1], &[1]), Ok(()));
        let date = 20_260_101_120_000;
        let mut state = complete();
        assert_eq!(state.timestamp(&timestamp_file(date, date + 1), &[1]), Ok(()));
        assert_eq!(state.timestamp(&timestamp_file(date, date + 1), &[1]), Err(NoNews));
        assert_eq!(state.timestamp(&timestamp_file(4, 6), &[1]), Err(WrongVersion));
        assert_eq!(state.timestamp(&timestamp_file(date + 1, date), &[1]), Err(WentBack));
        assert_eq!(found(&state, b"image"), Err(NotHeld));
        let names = [("a", date + 3), ("targets.json", date + 2)];
        assert_eq!(state.snapshot(&snapshot_file(date, &names), &[1]), Err(WrongVersion));
        assert_eq!(state.snapshot(&snapshot_file(date + 1, &names), &[1]), Ok(()));
        let lower = [("a", date + 2), ("targets.json", date + 2)];
        assert_eq!(state.snapshot(&snapshot_file(date + 1, &lower), &[1]), Err(WentBack));
        assert_eq!(state.targets(&targets_file(7), &[1]), Err(WrongVersion));
        assert_eq!(state.targets(&targets_file(date + 2), &[1]), Ok(()));
        assert!(found_in(&state, date + 2, b"image").is_ok());
    }

    #[test]
    fn expires_1000() {
        let at_1000 = file(&[5], &shelf::timestamp(1, "1970-01-01T00:16:40Z", r#""version":1"#));
        for (start, answer) in [(999, Ok(())), (1000, Err(OfferedExpired)), (1001, Err(OfferedExpired))] {
            let mut state = installed_at(&Root::new(1), 0);
            assert_eq!(state.cycle(start), Ok(()));
            assert_eq!(state.timestamp(&at_1000, &[1]), answer, "{start}");
        }
        let mut root = Root::new(1);
        root.expires = "1970-01-01T00:16:40Z";
        for (start, answer) in [(999, Ok(())), (1000, Err(HeldExpired))] {
            let mut state = installed_at(&root, 0);
            assert_eq!(state.cycle(start), Ok(()));
            assert_eq!(state.timestamp(&timestamp_file(1, 1), &[1]), answer, "{start}");
        }
    }

    #[test]
    fn files_of_32768_and_32769_bytes() {
        let mut state = installed(&Root::new(1));
        assert_eq!(
            state.timestamp(&padded(&timestamp_file(1, 1), 32_769), &[1]),
            Err(TooLong)
        );
        assert_eq!(state.timestamp(&padded(&timestamp_file(1, 1), 32_768), &[1]), Ok(()));
    }

    #[test]
    fn empty_targets_list() {
        let mut state = complete();
        let empty = file(&[4], &shelf::targets(8, EXPIRES, ""));
        assert_eq!(state.timestamp(&timestamp_file(4, 6), &[1]), Ok(()));
        assert_eq!(
            state.snapshot(&snapshot_file(6, &[("a", 9), ("targets.json", 8)]), &[1]),
            Ok(())
        );
        assert_eq!(state.targets(&empty, &[1]), Ok(()));
        assert_eq!(state.find(&empty, b"image").image, Err(NotListed));
        assert_eq!(state.find(&targets_file(8), b"image").image, Err(Differs));
    }

    #[test]
    fn a_timestamp_both_too_thinly_signed_and_expired() {
        let mut state = installed(&Root::new(1));
        let expired = file(&[5], &shelf::timestamp(1, "1999-12-31T23:59:59Z", r#""version":1"#));
        assert_eq!(state.timestamp(&expired, &[0]), Err(TooFewHeldKeys));
        assert_eq!(state.timestamp(&expired, &[1]), Err(OfferedExpired));
    }
}

mod getting_it_wrong {
    use super::*;

    #[test]
    fn counting_signatures_instead_of_keys() {
        let mut root = Root::new(1);
        root.timestamp = (vec![4, 5], 2);
        let mut state = installed(&root);
        let signed = shelf::timestamp(1, EXPIRES, r#""version":1"#);
        for (keys, row) in [
            (&[5, 5][..], &[1, 1][..]),
            (&[5, 3], &[1, 1]),
            (&[5, 4], &[1, 0]),
            (&[5, 5, 4, 9], &[1, 1, 0, 1]),
        ] {
            assert_eq!(
                state.timestamp(&file(keys, &signed), row),
                Err(TooFewHeldKeys),
                "{keys:?}"
            );
        }
        assert_eq!(state.timestamp(&file(&[5, 9, 5, 4], &signed), &[0, 0, 1, 1]), Ok(()));
    }

    #[test]
    fn judging_a_new_root_by_one_row() {
        let mut new = Root::new(2);
        new.root = (vec![6], 1);
        for (held_row, own_row, answer) in [
            ([1, 0], [0, 1], Ok(())),
            ([1, 1], [1, 0], Err(TooFewOwnKeys)),
            ([0, 1], [1, 1], Err(TooFewHeldKeys)),
            ([0, 1], [1, 0], Err(TooFewHeldKeys)),
            ([0, 0], [1, 1], Err(TooFewHeldKeys)),
        ] {
            let mut state = installed(&Root::new(1));
            assert_eq!(
                state.root(&new.file(&[1, 6]), &held_row, &own_row),
                answer,
                "{held_row:?} {own_row:?}"
            );
        }
    }

    #[test]
    fn comparing_names_with_escapes_or_closing_quote() {
        let names = [("a", 1), ("a!", 1), (r#"a\""#, 1), ("a#", 1), ("targets.json", 7)];
        let mut state = complete();
        assert_eq!(state.timestamp(&timestamp_file(4, 6), &[1]), Ok(()));
        let mut lower = names;
        lower[0].1 = 8;
        assert_eq!(state.snapshot(&snapshot_file(6, &lower), &[1]), Err(WentBack));
        lower[0].1 = 9;
        assert_eq!(state.snapshot(&snapshot_file(6, &lower), &[1]), Ok(()));
        let misplaced = [names[1], names[0], names[4]];
        assert_eq!(state.snapshot(&snapshot_file(6, &misplaced), &[1]), Err(NotCanonical));
    }

    #[test]
    fn skipping_roots_because_a_later_one_is_fully_signed() {
        let mut state = installed(&Root::new(1));
        assert_eq!(
            state.root(&Root::new(3).file(&[1, 2]), &[1, 1], &[1, 1]),
            Err(WrongVersion)
        );
        assert_eq!(state.root(&Root::new(2).file(&[1, 2]), &[1, 1], &[1, 1]), Ok(()));
        assert_eq!(state.root(&Root::new(3).file(&[1, 2]), &[1, 1], &[1, 1]), Ok(()));
    }

    #[test]
    fn refusing_an_expired_root_in_the_middle_of_the_chain() {
        let mut expired = Root::new(2);
        expired.expires = "1970-01-01T00:00:00Z";
        let mut state = installed(&Root::new(1));
        assert_eq!(state.root(&expired.file(&[1]), &[1], &[1]), Ok(()));
        assert_eq!(state.timestamp(&timestamp_file(1, 1), &[1]), Err(HeldExpired));
        assert_eq!(state.root(&Root::new(3).file(&[1]), &[1], &[1]), Ok(()));
        assert_eq!(state.timestamp(&timestamp_file(1, 1), &[1]), Ok(()));
        let old = State::install(&expired.file(&[1]), &[1], NOW);
        assert!(old.is_ok(), "an expired first root may be installed too");
    }

    #[test]
    fn dividing_toward_zero_before_1970() {
        let expires = "1969-12-31T23:59:59Z";
        let early = file(&[5], &shelf::timestamp(1, expires, r#""version":1"#));
        for (start, answer) in [(-2, Ok(())), (-1, Err(OfferedExpired)), (0, Err(OfferedExpired))] {
            let mut state = installed_at(&Root::new(1), i64::MIN);
            assert_eq!(state.cycle(start), Ok(()));
            assert_eq!(state.timestamp(&early, &[1]), answer, "{start}");
        }
    }
}

mod steps {
    use super::*;

    #[test]
    fn a_refused_install_is_blank_and_no_call_after_it_holds_anything() {
        assert_eq!(State::install(b"", &[], 7), Err(NotCanonical));
        let mut state = State::blank();
        assert_eq!(state.time, i64::MIN);
        assert_eq!(state.cycle(7), Ok(()));
        assert_eq!(state.root(&Root::new(2).file(&[1]), &[1], &[1]), Err(NotHeld));
        assert_eq!(state.timestamp(&timestamp_file(1, 1), &[1]), Err(NotHeld));
        assert_eq!(
            state.snapshot(&snapshot_file(1, &[("targets.json", 1)]), &[1]),
            Err(NotHeld)
        );
        assert_eq!(state.targets(&targets_file(1), &[1]), Err(NotHeld));
        assert_eq!(found(&state, b"image"), Err(NotHeld));
        assert_eq!(state.key(keyid(1).as_bytes()), Err(NotHeld));
        assert_eq!(state.timestamp(&timestamp_file(1, 1), &[]), Err(BrokenArgument));
        assert_eq!(
            state,
            State {
                time: 7,
                ..State::blank()
            }
        );
    }

    #[test]
    fn an_install_begins_a_new_history() {
        let again = State::install(&Root::new(1).file(&[1]), &[1], -5).unwrap();
        assert_eq!((again.time, &again.timestamp), (-5, &None));
        assert_eq!(complete().root, again.root);
    }

    #[test]
    fn rows_have_a_verdict_for_each_entry() {
        let root = Root::new(1).file(&[1, 2]);
        for row in [&[1][..], &[1, 1, 1], &[1, 2], &[255, 1], &[]] {
            assert_eq!(State::install(&root, row, NOW), Err(BrokenArgument), "{row:?}");
            let next = Root::new(2).file(&[1, 2]);
            assert_eq!(complete().root(&next, row, &[1, 1]), Err(BrokenArgument), "{row:?}");
            assert_eq!(complete().root(&next, &[1, 1], row), Err(BrokenArgument), "{row:?}");
        }
    }

    #[test]
    fn rotated_keys_drop_records() {
        type Change = fn(&mut Root);
        let changes: [(Change, [bool; 3]); 7] = [
            (|_| (), [true, true, true]),
            (|root| root.root = (vec![2, 6], 2), [true, true, true]),
            (|root| root.timestamp.0 = vec![5, 6], [false, false, false]),
            (|root| root.snapshot.0 = vec![6], [false, false, false]),
            (|root| root.targets.0 = vec![4, 6], [true, true, false]),
            (|root| root.keys.retain(|key| *key != 6), [true, true, true]),
            (|root| root.expires = "2031-01-01T00:00:00Z", [true, true, true]),
        ];
        for (number, (change, kept)) in changes.into_iter().enumerate() {
            let mut state = complete();
            let mut root = Root::new(2);
            change(&mut root);
            assert_eq!(state.root(&root.file(&[1, 2, 6]), &[1, 0, 0], &[0, 1, 1]), Ok(()));
            let held = [
                state.timestamp.is_some(),
                state.snapshot.is_some(),
                state.targets.is_some(),
            ];
            assert_eq!(held, kept, "{number}");
        }
    }

    /// A5: equal sets, in whatever order, and thresholds 1 and 2.
    #[test]
    fn another_threshold_is_a_rotation_and_another_order_is_none() {
        const ALL: [usize; 6] = [1, 2, 3, 4, 5, 6];
        let row = [1; ALL.len()];
        let timestamp = file(&ALL, &shelf::timestamp(1, EXPIRES, r#""version":1"#));
        let snapshot = file(&ALL, &shelf::snapshot(1, EXPIRES, r#""targets.json":{"version":1}"#));
        let targets = file(&ALL, &shelf::targets(1, EXPIRES, ""));

        type Part = fn(&mut Root) -> &mut (Vec<usize>, u64);
        let parts: [(Part, [bool; 3]); 4] = [
            (|root| &mut root.root, [true, true, true]),
            (|root| &mut root.timestamp, [false, false, false]),
            (|root| &mut root.snapshot, [false, false, false]),
            (|root| &mut root.targets, [true, true, false]),
        ];
        for (number, (part, kept)) in parts.into_iter().enumerate() {
            for (before, after) in [(1, 1), (1, 2), (2, 1), (2, 2)] {
                let mut root = Root::new(1);
                *part(&mut root) = (vec![5, 6], before);
                let mut state = State::install(&root.file(&ALL), &row, NOW).unwrap();
                assert_eq!(state.timestamp(&timestamp, &row), Ok(()));
                assert_eq!(state.snapshot(&snapshot, &row), Ok(()));
                assert_eq!(state.targets(&targets, &row), Ok(()));

                root.version = 2;
                *part(&mut root) = (vec![6, 5], after);
                assert_eq!(state.root(&root.file(&ALL), &row, &row), Ok(()));
                let held = [
                    state.timestamp.is_some(),
                    state.snapshot.is_some(),
                    state.targets.is_some(),
                ];
                let kept = if before == after { [true; 3] } else { kept };
                assert_eq!(held, kept, "role {number}: {before} and {after}");
            }
        }
    }

    #[test]
    fn timestamps_do_not_fall() {
        let mut state = complete();
        assert_eq!(state.timestamp(&timestamp_file(2, 6), &[1]), Err(WrongVersion));
        assert_eq!(state.timestamp(&timestamp_file(3, 6), &[1]), Err(NoNews));
        assert_eq!(state.timestamp(&timestamp_file(4, 4), &[1]), Err(WentBack));
        assert_eq!(state.timestamp(&timestamp_file(4, 5), &[1]), Ok(()));
    }

    #[test]
    fn snapshots_do_not_fall() {
        let mut state = complete();
        assert_eq!(state.timestamp(&timestamp_file(4, 6), &[1]), Ok(()));
        for (version, names, answer) in [
            (5, &[("a", 9), ("targets.json", 7)][..], Err(WrongVersion)),
            (7, &[("a", 9), ("targets.json", 7)], Err(WrongVersion)),
            (6, &[("targets.json", 7)], Err(WentBack)),
            (6, &[("a", 8), ("targets.json", 7)], Err(WentBack)),
            (6, &[("a", 9), ("targets.json", 6)], Err(WentBack)),
            (6, &[("a", 9), ("b", 1), ("targets.json", 7)], Ok(())),
        ] {
            assert_eq!(
                state.snapshot(&snapshot_file(version, names), &[1]),
                answer,
                "{names:?}"
            );
        }
    }

    #[test]
    fn length_and_digest_where_listed() {
        let listings: [(&str, [Result<(), Refusal>; 3]); 4] = [
            ("", [Ok(()), Ok(()), Ok(())]),
            (r#""length":LENGTH,"#, [Ok(()), Err(Differs), Ok(())]),
            (r#""hashes":{"sha256":"DIGEST"},"#, [Ok(()), Err(Differs), Err(Differs)]),
            (
                r#""hashes":{"sha256":"DIGEST"},"length":LENGTH,"#,
                [Ok(()), Err(Differs), Err(Differs)],
            ),
        ];
        let sound = snapshot_file(1, &[("targets.json", 1)]);
        let longer = snapshot_file(1, &[("b", 1), ("targets.json", 1)]);
        let as_long = snapshot_file(1, &[("targets.json", 2)]);
        assert_eq!(as_long.len(), sound.len());
        for (listing, answers) in listings {
            let listed = listing
                .replace("LENGTH", &sound.len().to_string())
                .replace("DIGEST", &hex::written(&sha256::digest(&sound)));
            let listed = format!(r#"{listed}"version":1"#);
            for (offered, answer) in [&sound, &longer, &as_long].into_iter().zip(answers) {
                let mut state = installed(&Root::new(1));
                assert_eq!(
                    state.timestamp(&file(&[5], &shelf::timestamp(1, EXPIRES, &listed)), &[1]),
                    Ok(())
                );
                assert_eq!(state.snapshot(offered, &[1]), answer, "{listed}");
            }
        }
    }

    /// It is the whole file that is digested, its signatures too, and not the signed part.
    #[test]
    fn the_digest_is_that_of_the_whole_file() {
        let signed = shelf::targets(7, EXPIRES, "");
        let (one, other) = (file(&[4], &signed), file(&[4, 6], &signed));
        for (listed, answers) in [(&one, [Ok(()), Err(Differs)]), (&other, [Err(Differs), Ok(())])] {
            let sha256 = hex::written(&sha256::digest(listed));
            let listed = format!(r#""targets.json":{{"hashes":{{"sha256":"{sha256}"}},"version":7}}"#);
            let snapshot = file(&[3], &shelf::snapshot(5, EXPIRES, &listed));
            for ((offered, row), answer) in [(&one, &[1][..]), (&other, &[1, 0])].into_iter().zip(answers) {
                let mut state = installed(&Root::new(1));
                assert_eq!(state.timestamp(&timestamp_file(3, 5), &[1]), Ok(()));
                assert_eq!(state.snapshot(&snapshot, &[1]), Ok(()));
                assert_eq!(state.targets(offered, row), answer);
            }
        }
        let mut state = complete();
        assert_eq!(state.timestamp(&timestamp_file(4, 6), &[1]), Ok(()));
        let newer = snapshot_file(6, &[("a", 9), ("targets.json", 7)]);
        assert_eq!(state.snapshot(&newer, &[1]), Ok(()));
        assert_eq!(state.targets(&one, &[1]), Ok(()));
        assert_eq!(state.find(&one, b"image").image, Err(NotListed));
        assert_eq!(state.find(&other, b"image").image, Err(Differs));
    }

    #[test]
    fn snapshot_and_targets_have_to_be_current() {
        let mut state = complete();
        assert_eq!(found(&state, b"image"), Ok((0, hex::written(&digest(1)))));
        assert_eq!(state.timestamp(&timestamp_file(4, 6), &[1]), Ok(()));
        assert_eq!(found(&state, b"image"), Err(NotHeld));
        assert_eq!(state.targets(&targets_file(7), &[1]), Err(NotHeld));
        let newer = snapshot_file(6, &[("a", 9), ("targets.json", 8)]);
        assert_eq!(state.snapshot(&newer, &[1]), Ok(()));
        assert_eq!(found(&state, b"image"), Err(NotHeld));
        assert_eq!(state.targets(&targets_file(7), &[1]), Err(WrongVersion));
        assert_eq!(state.targets(&targets_file(8), &[1]), Ok(()));
        assert_eq!(found(&state, b"image"), Err(Differs));
        assert_eq!(found_in(&state, 8, b"image"), Ok((0, hex::written(&digest(1)))));
    }

    #[test]
    fn records_leaned_on_have_not_expired() {
        let mut state = complete();
        assert_eq!(state.cycle(EXPIRY - 1), Ok(()));
        assert_eq!(found(&state, b"image"), Ok((0, hex::written(&digest(1)))));
        let expired = snapshot_expiring(5, "2020-01-01T00:00:00Z", &[("a", 9), ("targets.json", 7)]);
        assert_eq!(state.snapshot(&expired, &[1]), Err(OfferedExpired));
        assert_eq!(state.cycle(EXPIRY), Ok(()));
        assert_eq!(found(&state, b"image"), Err(HeldExpired));
        assert_eq!(state.timestamp(&timestamp_file(4, 6), &[1]), Err(HeldExpired));
        let newer = snapshot_file(6, &[("targets.json", 8)]);
        assert_eq!(state.snapshot(&newer, &[1]), Err(HeldExpired));
        assert_eq!(state.targets(&targets_file(7), &[1]), Err(HeldExpired));
    }

    #[test]
    fn paths_are_compared_with_escapes_undone() {
        let state = complete();
        assert_eq!(found(&state, br#"a"b\"#), Ok((4_294_967_295, hex::written(&digest(1)))));
        for path in [
            &br#"a\"b\\"#[..],
            b"",
            b"imag",
            b"image ",
            b"Image",
            b"\xff",
            &[b'x'; 129],
        ] {
            assert_eq!(found(&state, path), Err(NotListed), "{path:?}");
        }
    }

    #[test]
    fn keys_of_the_held_root() {
        let state = complete();
        assert_eq!(state.key(keyid(6).as_bytes()), Ok(public(6).as_str()));
        for asked in [
            keyid(7),
            keyid(6).to_uppercase(),
            keyid(6) + "0",
            String::new(),
            keyid(6)[1..].to_string(),
        ] {
            assert_eq!(state.key(asked.as_bytes()), Err(NotListed), "{asked}");
        }
    }

    #[test]
    fn images_are_what_was_found() {
        let (one, other) = (digest(1), digest(2));
        assert_eq!(image((7, &one), (7, &one)), Ok(()));
        assert_eq!(image((7, &one), (8, &one)), Err(Differs));
        assert_eq!(image((7, &one), (7, &other)), Err(Differs));
        assert_eq!(image((7, &one[..31]), (7, &one[..31])), Err(BrokenArgument));
        assert_eq!(image((7, &one), (8, &[1; 33])), Err(BrokenArgument));
    }
}

/// A8: "The state keeps the latest start time it has had. A new cycle with an earlier one is refused with the new number 17
/// and changes nothing; an equal one passes. [..] Install starts the record anew."
mod clock {
    use super::*;

    /// About the ends of the range, of 32 bits and of the dates, in rising order.
    const TIMES: [i64; 15] = [
        i64::MIN,
        i64::MIN + 1,
        -62_167_219_200,
        -(1 << 32),
        -(1 << 31),
        -1,
        0,
        1,
        (1 << 31) - 1,
        1 << 31,
        1 << 32,
        (1 << 32) + 1,
        253_402_300_799,
        i64::MAX - 1,
        i64::MAX,
    ];

    /// Tries every time on this state. An accepted one sets the start time and nothing else; a refused one changes nothing.
    fn tried(state: &State) {
        for time in TIMES {
            let mut next = state.clone();
            let (answer, in_force) = match time < state.time {
                true => (Err(EarlierStart), state.time),
                false => (Ok(()), time),
            };
            assert_eq!(next.cycle(time), answer, "{time} after {}", state.time);
            let expected = State {
                time: in_force,
                ..state.clone()
            };
            assert_eq!(next, expected, "{time} after {}", state.time);
        }
    }

    #[test]
    fn every_time_after_every_installed_one() {
        for start in TIMES {
            tried(&installed_at(&Root::new(1), start));
        }
    }

    #[test]
    fn every_time_after_every_cycle() {
        for before in [State::blank(), installed_at(&Root::new(1), i64::MIN)] {
            for start in TIMES {
                let mut state = before.clone();
                assert_eq!(state.cycle(start), Ok(()), "no time is earlier than the lowest count");
                tried(&state);
            }
        }
        let mut state = complete();
        tried(&state);
        assert_eq!(state.cycle(NOW + 1), Ok(()));
        tried(&state);
        assert_eq!(
            state.cycle(NOW),
            Err(EarlierStart),
            "the installed one is not the latest"
        );
    }

    #[test]
    fn refused_ones_between_others_are_forgotten() {
        let mut state = complete();
        for (time, answer) in [
            (NOW, Ok(())),
            (NOW - 1, Err(EarlierStart)),
            (NOW, Ok(())),
            (NOW + 5, Ok(())),
            (NOW + 4, Err(EarlierStart)),
            (i64::MIN, Err(EarlierStart)),
            (NOW + 5, Ok(())),
            (NOW + 6, Ok(())),
        ] {
            assert_eq!(state.cycle(time), answer, "{time}");
        }
    }

    /// "A flat battery put a controller into an earlier year and it found an expired list fresh."
    #[test]
    fn an_expired_list_stays_expired() {
        let mut state = complete();
        assert_eq!(state.cycle(EXPIRY), Ok(()));
        for earlier in [EXPIRY - 1, NOW, 0, i64::MIN] {
            let before = state.clone();
            assert_eq!(state.cycle(earlier), Err(EarlierStart), "{earlier}");
            assert_eq!(state, before);
            assert_eq!(found(&state, b"image"), Err(HeldExpired));
            assert_eq!(state.timestamp(&timestamp_file(4, 6), &[1]), Err(HeldExpired));
        }
    }

    #[test]
    fn an_offered_file_stays_expired() {
        let mut root = Root::new(1);
        root.expires = "2031-01-01T00:00:00Z";
        let mut state = installed(&root);
        for (time, answer) in [(EXPIRY, Ok(())), (NOW, Err(EarlierStart)), (EXPIRY, Ok(()))] {
            assert_eq!(state.cycle(time), answer);
            assert_eq!(state.timestamp(&timestamp_file(1, 1), &[1]), Err(OfferedExpired));
        }
    }

    #[test]
    fn an_install_starts_the_record_anew() {
        let mut state = complete();
        assert_eq!(state.cycle(i64::MAX), Ok(()));
        assert_eq!(state.cycle(NOW), Err(EarlierStart));
        let mut state = installed_at(&Root::new(1), NOW - 10);
        assert_eq!(state.cycle(NOW - 11), Err(EarlierStart));
        assert_eq!(state.cycle(NOW - 9), Ok(()));
    }

    #[test]
    fn no_other_call_changes_the_record() {
        let mut state = complete();
        assert_eq!(state.cycle(NOW + 10), Ok(()));
        let mut rotating = Root::new(3);
        rotating.timestamp.0 = vec![6];
        type Step<'a> = &'a dyn Fn(&mut State) -> Result<(), Refusal>;
        let steps: [(Step, Result<(), Refusal>); 7] = [
            (&|state| state.timestamp(&timestamp_file(3, 5), &[1]), Err(NoNews)),
            (&|state| state.timestamp(&timestamp_file(4, 5), &[1]), Ok(())),
            (&|state| state.targets(&targets_file(7), &[1]), Ok(())),
            (&|state| found(state, b"image").map(drop), Ok(())),
            (&|state| state.root(&Root::new(2).file(&[1]), &[1], &[1]), Ok(())),
            (&|state| state.root(&rotating.file(&[1]), &[1], &[1]), Ok(())),
            (
                &|state| state.timestamp(&timestamp_file(5, 6), &[1]),
                Err(TooFewHeldKeys),
            ),
        ];
        for (number, (step, answer)) in steps.into_iter().enumerate() {
            assert_eq!(step(&mut state), answer, "{number}");
            assert_eq!(state.cycle(NOW + 9), Err(EarlierStart), "{number}");
            assert_eq!(state.cycle(NOW + 10), Ok(()), "{number}");
        }
        assert_eq!(
            (state.timestamp, state.time),
            (None, NOW + 10),
            "dropped by the last root"
        );
    }
}

mod broken_forms {
    use super::*;

    type Reader = fn(&[u8]) -> Result<(), Refusal>;

    const ROOT: Reader = |file| forms::root(file).map(|_| ());
    const TIMESTAMP: Reader = |file| forms::timestamp(file).map(|_| ());
    const SNAPSHOT: Reader = |file| forms::snapshot(file).map(|_| ());
    const TARGETS: Reader = |file| forms::targets(file).map(|_| ());

    /// Both ends of the range, 01's highest version and the one above it, and one made from a date.
    const SOUND_VERSIONS: [u64; 6] = [
        1,
        2_147_483_647,
        2_147_483_648,
        20_260_101_120_000,
        9_007_199_254_740_990,
        9_007_199_254_740_991,
    ];

    /// Reads the signed part with each pair's first text replaced by its second, which has to end with the answer.
    fn replaced(reader: Reader, signed: &str, answer: Result<(), Refusal>, pairs: &[(&str, &str)]) {
        assert_eq!(reader(&file(&[1], signed)), Ok(()), "{signed}");
        for (old, new) in pairs {
            assert!(signed.contains(old), "{old}");
            let text = signed.replacen(old, new, 1);
            assert_eq!(reader(&file(&[1], &text)), answer, "{text}");
        }
    }

    #[test]
    fn of_every_role() {
        let targets = shelf::targets(1, EXPIRES, "");
        let listed = r#""version":1"#;
        let files = [
            (ROOT, Root::new(1).signed()),
            (TIMESTAMP, shelf::timestamp(1, EXPIRES, listed)),
            (SNAPSHOT, shelf::snapshot(1, EXPIRES, r#""targets.json":{"version":1}"#)),
            (TARGETS, targets.clone()),
        ];
        for (reader, signed) in &files {
            let broken = [
                ("_type\":\"", "_type\":\"x"),
                ("\"_type\"", "\"_typf\""),
                ("spec_version\":\"1", "spec_versio!\":\"1"),
                ("expires\":\"2030", "expires\":\"203"),
                ("T00:00:00Z", "T24:00:00Z"),
            ];
            replaced(*reader, signed, Err(BrokenForm), &broken);
            let versions = [
                "\"version\":0}",
                "\"version\":-1}",
                "\"version\":9007199254740992}",
                "\"version\":9007199254740993}",
                "\"version\":18446744073709551617}",
                "\"version\":99999999999999999999999}",
                "\"version\":\"1\"}",
                "\"version!\":1}",
            ];
            let with = |version: &str| format!("{}{version}", signed.strip_suffix("\"version\":1}").unwrap());
            for version in versions {
                let text = with(version);
                assert_eq!(reader(&file(&[1], &text)), Err(BrokenForm), "{text}");
            }
            for version in SOUND_VERSIONS {
                let text = with(&format!("\"version\":{version}}}"));
                assert_eq!(reader(&file(&[1], &text)), Ok(()), "{text}");
            }
        }
        assert_eq!(ROOT(&file(&[1], &targets)), Err(BrokenForm));
    }

    #[test]
    fn of_spec_version() {
        let signed = shelf::targets(1, EXPIRES, "");
        let with =
            |spec_version: &str| signed.replace(r#""spec_version":"1""#, &format!(r#""spec_version":{spec_version}"#));
        for sound in [r#""1""#, r#""1.""#, r#""1.0.26""#, r#""1.x""#] {
            assert_eq!(TARGETS(&file(&[], &with(sound))), Ok(()), "{sound}");
        }
        for other in [
            r#""""#,
            r#""2""#,
            r#""10""#,
            r#""1 ""#,
            r#"" 1""#,
            r#""1,0""#,
            r#""01.0""#,
            r#"".1""#,
        ] {
            assert_eq!(TARGETS(&file(&[], &with(other))), Err(SpecVersion), "{other}");
            let broken = with(other).replace("\"version\":1", "\"version\":0");
            assert_eq!(TARGETS(&file(&[], &broken)), Err(BrokenForm), "{other}");
        }
        for broken in ["1", "null", r#"["1"]"#, "true"] {
            assert_eq!(TARGETS(&file(&[], &with(broken))), Err(BrokenForm), "{broken}");
        }
    }

    #[test]
    fn of_roots() {
        let signed = Root::new(1).signed();
        let first_of_root = |key: usize| format!(r#""root":{{"keyids":["{}""#, keyid(key));
        let (sound, twice, stray) = (first_of_root(1), first_of_root(2), first_of_root(7));
        let in_table = format!(r#""{}":{{"#, keyid(1));
        let other_name = in_table.replacen(&keyid(1), &last_digit_changed(&keyid(1)), 1);
        let pairs = [
            ("\"consistent_snapshot\":false", "\"consistent_snapshot\":0"),
            ("\"consistent_snapshot\":false", "\"consistent_snapshou\":false"),
            ("\"keytype\":\"ed25519\"", "\"keytype\":\"rsa\""),
            ("\"scheme\":\"ed25519\"", "\"scheme\":\"ed25518\""),
            ("\"public\":\"01", "\"public\":\"1"),
            ("\"public\":\"01", "\"public\":\"0A"),
            ("\"public\":\"01", "\"public\":\"02"),
            (&in_table, &other_name),
            ("\"roles\":{\"root\"", "\"roles\":{\"roos\""),
            (&sound, &twice),
            (&sound, &stray),
            ("\"threshold\":1", "\"threshold\":0"),
            ("\"threshold\":1", "\"threshold\":3"),
            ("\"threshold\":1", "\"threshold\":18446744073709551617"),
        ];
        replaced(ROOT, &signed, Err(BrokenForm), &pairs);
        let passed_over = [
            ("\"roles\":{\"root\"", "\"roles\":{\"mirrors\":0,\"root\""),
            ("\"threshold\":1", "\"threshold\":2"),
            ("\"consistent_snapshot\":false", "\"consistent_snapshot\":true"),
            ("\"_type\"", "\"\":[],\"_type\""),
        ];
        replaced(ROOT, &signed, Ok(()), &passed_over);
    }

    #[test]
    fn of_roots_with_many_keys() {
        let mut root = Root::new(1);
        root.keys = (1..=16).collect();
        root.targets = (root.keys.clone(), 16);
        assert_eq!(ROOT(&root.file(&[1])), Ok(()));
        root.targets.1 = 17;
        assert_eq!(ROOT(&root.file(&[1])), Err(BrokenForm));
        root.targets.1 = 16;
        root.keys.push(17);
        assert_eq!(ROOT(&root.file(&[1])), Err(BrokenForm));
        root.keys.clear();
        root.targets.0.clear();
        assert_eq!(ROOT(&root.file(&[1])), Err(BrokenForm));
    }

    #[test]
    fn of_listed_files() {
        let sha256 = hex::written(&digest(1));
        let with = |listed: &str| file(&[], &shelf::timestamp(1, EXPIRES, listed));
        for sound in [
            r#""length":0,"version":1"#.to_string(),
            r#""length":4294967295,"version":1"#.to_string(),
            format!(r#""hashes":{{"md5":0,"sha256":"{sha256}","sha512":[]}},"version":1,"x":0"#),
        ] {
            assert_eq!(TIMESTAMP(&with(&sound)), Ok(()), "{sound}");
        }
        for broken in [
            "".to_string(),
            r#""length":-1,"version":1"#.to_string(),
            r#""length":4294967296,"version":1"#.to_string(),
            r#""length":9007199254740991,"version":1"#.to_string(),
            r#""length":null,"version":1"#.to_string(),
            r#""hashes":{},"version":1"#.to_string(),
            r#""hashes":null,"version":1"#.to_string(),
            format!(r#""hashes":{{"sha256":"{}"}},"version":1"#, &sha256[1..]),
            format!(r#""hashes":{{"sha512":"{sha256}"}},"version":1"#),
            format!(r#""hashes":{{"sha256":"{}"}},"version":1"#, sha256.replace('1', "A")),
        ] {
            assert_eq!(TIMESTAMP(&with(&broken)), Err(BrokenForm), "{broken}");
        }
        let other = shelf::timestamp(1, EXPIRES, r#""version":1"#).replace("snapshot.json", "snapshot.jso");
        assert_eq!(TIMESTAMP(&file(&[], &other)), Err(BrokenForm));
        let further = shelf::timestamp(1, EXPIRES, r#""version":1},"x":{"version":1"#);
        assert_eq!(TIMESTAMP(&file(&[], &further)), Err(BrokenForm));
    }

    #[test]
    fn of_listed_versions() {
        let timestamp = |version: &str| {
            let listed = format!(r#""version":{version}"#);
            TIMESTAMP(&file(&[], &shelf::timestamp(1, EXPIRES, &listed)))
        };
        let snapshot = |one: &str, other: &str| {
            let names = format!(r#""a":{{"version":{one}}},"targets.json":{{"version":{other}}}"#);
            SNAPSHOT(&file(&[], &shelf::snapshot(1, EXPIRES, &names)))
        };
        let all = |version: &str| [timestamp(version), snapshot(version, "1"), snapshot("1", version)];
        for sound in SOUND_VERSIONS {
            assert_eq!(all(&sound.to_string()), [Ok(()); 3], "{sound}");
        }
        for broken in [
            "0",
            "-1",
            "9007199254740992",
            "9007199254740993",
            "18446744073709551617",
        ] {
            assert_eq!(all(broken), [Err(BrokenForm); 3], "{broken}");
        }
    }

    /// A7: "Image lengths stay."
    #[test]
    fn of_image_lengths() {
        let with = |length: u64| {
            let table = shelf::target("image", length, &hex::written(&digest(1)));
            TARGETS(&file(&[], &shelf::targets(1, EXPIRES, &table)))
        };
        assert_eq!(with(4_294_967_295), Ok(()));
        for length in [4_294_967_296, 20_260_101_120_000, 9_007_199_254_740_991] {
            assert_eq!(with(length), Err(BrokenForm), "{length}");
        }
    }

    #[test]
    fn of_names() {
        let snapshot = |names: &[String]| {
            let mut names: Vec<String> = names
                .iter()
                .map(|name| format!(r#""{name}":{{"version":1}}"#))
                .collect();
            names.sort();
            SNAPSHOT(&file(&[], &shelf::snapshot(1, EXPIRES, &names.join(","))))
        };
        let named = |name: &str| snapshot(&["targets.json".to_string(), name.to_string()]);
        assert_eq!(snapshot(&["target.json".to_string()]), Err(BrokenForm));
        assert_eq!(snapshot(&[]), Err(BrokenForm));
        assert_eq!(named(""), Err(BrokenForm));
        assert_eq!(named(&"x".repeat(32)), Ok(()));
        assert_eq!(named(&"x".repeat(33)), Err(BrokenForm));
        assert_eq!(named(&r"\\".repeat(32)), Ok(()));
        assert_eq!(named(&r"\\".repeat(33)), Err(BrokenForm));
        let many = |count: usize| {
            let names = (1..count).map(|number| format!("{number:02}"));
            names.chain(["targets.json".to_string()]).collect::<Vec<_>>()
        };
        assert_eq!(snapshot(&many(32)), Ok(()));
        assert_eq!(snapshot(&many(33)), Err(BrokenForm));
    }

    #[test]
    fn of_targets() {
        let sha256 = hex::written(&digest(1));
        let with = |table: &str| TARGETS(&file(&[], &shelf::targets(1, EXPIRES, table)));
        assert_eq!(with(&shelf::target(&"x".repeat(128), 0, &sha256)), Ok(()));
        assert_eq!(with(&shelf::target(&"\\\"".repeat(128), 0, &sha256)), Ok(()));
        assert_eq!(with(&shelf::target(&"x".repeat(129), 0, &sha256)), Err(BrokenForm));
        assert_eq!(with(&shelf::target("", 0, &sha256)), Err(BrokenForm));
        assert_eq!(with(&shelf::target("x", 4_294_967_296, &sha256)), Err(BrokenForm));
        assert_eq!(with(r#""x":{"length":1}"#), Err(BrokenForm));
        assert_eq!(
            with(&format!(r#""x":{{"hashes":{{"sha256":"{sha256}"}}}}"#)),
            Err(BrokenForm)
        );
        assert_eq!(
            with(&format!(
                r#""x":{{"hashes":{{"sha256":"{sha256}"}},"length":1,"version":0}}"#
            )),
            Ok(())
        );
        let many = |count: usize| {
            let targets: Vec<String> = (0..count)
                .map(|number| shelf::target(&format!("{number:03}"), 0, &sha256))
                .collect();
            targets.join(",")
        };
        assert_eq!(with(&many(256)), Ok(()));
        assert_eq!(with(&many(257)), Err(BrokenForm));
    }
}

/// "It tells find how many names it compared: exactly the smaller ones, and one more where one is left."
mod compared {
    use super::*;

    /// A state that holds a targets file with these names, as they stand between quotation marks, and the file.
    fn holding(names: &[&str]) -> (State, Vec<u8>) {
        let file = file(&[4], &shelf::targets(7, EXPIRES, &table(names)));
        let mut state = complete();
        assert_eq!(state.targets(&file, &[1]), Ok(()));
        (state, file)
    }

    fn table(names: &[&str]) -> String {
        let sha256 = hex::written(&digest(1));
        let targets: Vec<String> = names.iter().map(|name| shelf::target(name, 1, &sha256)).collect();
        targets.join(",")
    }

    /// Asks for paths in a list, each with the number that it has to give.
    fn asked(names: &[&str], paths: &[(&[u8], usize)]) {
        let (state, file) = holding(names);
        for (path, number) in paths {
            assert_eq!(state.find(&file, path).compared, *number, "{path:?} in {names:?}");
        }
    }

    fn refused(refusal: Refusal) -> Found {
        Found {
            image: Err(refusal),
            compared: 0,
        }
    }

    #[test]
    fn before_at_between_and_after_the_names() {
        asked(
            &["b", "d", "f"],
            &[
                (b"", 1),
                (b"a", 1),
                (b"b", 1),
                (b"c", 2),
                (b"d", 2),
                (b"e", 3),
                (b"f", 3),
                (b"g", 3),
            ],
        );
    }

    #[test]
    fn where_one_name_is_listed_or_none() {
        for path in [&b""[..], b"a", b"b", b"c", b"\xff", &[b'x'; 129], &[b'x'; 300]] {
            asked(&[], &[(path, 0)]);
            asked(&["b"], &[(path, 1)]);
        }
    }

    #[test]
    fn a_shorter_prefix_comes_first() {
        asked(
            &["a", "ab", "abc"],
            &[
                (b"a", 1),
                (b"a\0", 2),
                (b"aa", 2),
                (b"ab", 2),
                (b"abb", 3),
                (b"abc", 3),
                (b"abcd", 3),
                (b"b", 3),
            ],
        );
    }

    #[test]
    fn after_the_escapes_are_undone() {
        asked(
            &["!", r#"\""#, "#", "[", r"\\", "]"],
            &[
                (b"!", 1),
                (b"!!", 2),
                (b"\"", 2),
                (b"\"!", 3),
                (b"#", 3),
                (b"$", 4),
                (b"[", 4),
                (b"[]", 5),
                (b"\\", 5),
                (b"\\\"", 6),
                (b"\\\\", 6),
                (b"]", 6),
                (b"^", 6),
            ],
        );
    }

    #[test]
    fn bytes_have_no_sign() {
        // ~ is 7e; the others begin with c2, e0 and f0.
        asked(
            &["~", "\u{80}", "\u{800}", "\u{10000}"],
            &[
                (b"}", 1),
                (b"~", 1),
                (b"\x7f", 2),
                (b"\x80", 2),
                (b"\xc2", 2),
                ("\u{80}".as_bytes(), 2),
                ("\u{81}".as_bytes(), 3),
                ("\u{7ff}".as_bytes(), 3),
                ("\u{800}".as_bytes(), 3),
                ("\u{ffff}".as_bytes(), 4),
                ("\u{10000}".as_bytes(), 4),
                (b"\xff", 4),
            ],
        );
    }

    #[test]
    fn of_paths_that_are_15_by_their_length() {
        let (x127, x128) = ("x".repeat(127), "x".repeat(128));
        let names = [&*x127, &*x128, "y"];
        asked(
            &names,
            &[
                (b"", 1),
                (&[b'a'; 129], 1),
                (&[b'x'; 126], 1),
                (&[b'x'; 127], 1),
                (&[b'x'; 128], 2),
                (&[b'x'; 129], 3),
                (&[b'x'; 300], 3),
                (&[b'z'; 129], 3),
            ],
        );
        let (state, file) = holding(&names);
        for path in [&b""[..], &[b'a'; 129], &[b'x'; 129], &[b'x'; 300]] {
            assert_eq!(state.find(&file, path).image, Err(NotListed));
        }
    }

    #[test]
    fn nothing_with_a_refusal_of_1_to_8() {
        let names = ["b", "d", "f"];
        let (state, sound) = holding(&names);
        let mut expired = state.clone();
        assert_eq!(expired.cycle(EXPIRY), Ok(()));
        let signed = shelf::targets(7, EXPIRES, &table(&names));
        let other_spec = signed.replace(r#""spec_version":"1""#, r#""spec_version":"2""#);
        for path in [&b""[..], b"b", b"e", b"g", &[b'x'; 129]] {
            for (given, refusal) in [
                (padded(&sound, 32_769), TooLong),
                ([&sound[..], b" "].concat(), NotCanonical),
                (file(&[4], &signed.replace("\"_type\"", "\"_typf\"")), BrokenForm),
                (file(&[4], &other_spec), SpecVersion),
                (file(&[6], &signed), Differs),
            ] {
                assert_eq!(state.find(&given, path), refused(refusal), "{path:?}");
            }
            assert_eq!(State::blank().find(&sound, path), refused(NotHeld), "{path:?}");
            assert_eq!(expired.find(&sound, path), refused(HeldExpired), "{path:?}");
        }
        assert_eq!(state.find(&sound, b"d").compared, 2);
    }

    /// "Every answer and refusal of find stays as it is; a file that is not canonical is still refused as such."
    #[test]
    fn images_behind_the_path_are_still_judged() {
        let (state, _) = holding(&["b", "d", "f"]);
        let with = |table: &str| file(&[4], &shelf::targets(7, EXPIRES, table));
        let broken_image = table(&["b", "d"]) + r#","f":{"length":1}"#;
        for path in [&b"a"[..], b"b", b"c", b"d"] {
            assert_eq!(state.find(&with(&broken_image), path), refused(BrokenForm));
            for misplaced in [["b", "d", "c"], ["b", "d", "d"], ["d", "b", "f"]] {
                assert_eq!(state.find(&with(&table(&misplaced)), path), refused(NotCanonical));
            }
        }
    }
}

/// "A key table's keyid must be the hex digest of the canonical text of its key, unknown members included [..]; otherwise the
/// new refusal 16, tried between 3 and 4".
mod keyids {
    use super::*;

    /// What both calls that read a root answer to it; it is version 2, and signed by enough keys.
    fn answers(root: &Root) -> Result<(), Refusal> {
        let file = root.file(&[1, 2]);
        let installed_alone = State::install(&file, &[1, 1], NOW).map(drop);
        let mut state = installed(&Root::new(1));
        let before = state.clone();
        // Key 2 stays what it is, and so enough keys of the held root sign.
        let answer = state.root(&file, &[1, 1], &[1, 1]);
        assert_eq!(answer, installed_alone);
        assert!(answer.is_ok() || state == before, "a refusal changes nothing");
        answer
    }

    fn second() -> Root {
        Root::new(2)
    }

    /// Document 003 prints this key with this keyid; 000 prints the keyid that it has without the scheme.
    const PRINTED_KEY: &str = r#"{"keytype":"ed25519","keyval":{"public":"66dd78c5c2a78abc6fc6b267ff1a8017ba0e8bfc853dd97af351949bba021275"},"scheme":"ed25519"}"#;
    const PRINTED_IN_003: &str = "cb3fbd83df4ba2471a736b065650878280964a98843ec13b457a99b2a21cc3b4";
    const PRINTED_IN_000: &str = "f2d5020d08aea06a0a9192eb6a4f549e17032ebefa1aa9ac167c1e3e727930d6";

    #[test]
    fn a_printed_keyid_is_true_in_003_and_not_in_000() {
        for (keyid, answer) in [(PRINTED_IN_003, Ok(())), (PRINTED_IN_000, Err(OtherKeyid))] {
            let mut root = second();
            root.texts.insert(1, PRINTED_KEY.to_string());
            root.keyids.insert(1, keyid.to_string());
            assert_eq!(answers(&root), answer, "{keyid}");
        }
        assert_eq!(keyid_of(PRINTED_KEY), PRINTED_IN_003);
        let without_scheme = PRINTED_KEY.replace(r#","scheme":"ed25519""#, "");
        assert_eq!(keyid_of(&without_scheme), PRINTED_IN_000);
    }

    #[test]
    fn off_by_one_digit() {
        for key in [1, 5, 6] {
            for place in 0..64 {
                let mut root = second();
                root.keyids.insert(key, digit_changed(&keyid(key), place));
                assert_eq!(answers(&root), Err(OtherKeyid), "key {key}, digit {place}");
            }
        }
        assert_eq!(answers(&second()), Ok(()));
    }

    #[test]
    fn a_keyid_in_upper_case_has_not_its_form() {
        let mut root = second();
        root.keyids.insert(5, keyid(5).to_uppercase());
        assert_eq!(answers(&root), Err(BrokenForm));
    }

    #[test]
    fn the_keyids_of_two_keys_swapped() {
        let mut root = second();
        root.keyids.extend([(1, keyid(2)), (2, keyid(1))]);
        assert_eq!(answers(&root), Err(OtherKeyid));
        root.keyids.clear();
        assert_eq!(answers(&root), Ok(()));
    }

    #[test]
    fn unknown_members_of_a_key_are_part_of_its_text() {
        for (known, more) in [
            (r#"{"keytype""#, r#"{"a":0,"keytype""#),
            (r#""keyval":{"#, r#""keyval":{"private":"","#),
            (
                r#""scheme":"ed25519""#,
                r#""scheme":"ed25519","z":{"a":[{"b":"\"\\"},null]}"#,
            ),
            (r#","scheme""#, r#","keyval!":-1,"scheme""#),
        ] {
            let text = key_text(6).replace(known, more);
            assert_ne!(text, key_text(6));
            let mut root = second();
            root.texts.insert(6, text.clone());
            assert_eq!(answers(&root), Ok(()), "{text}");
            // Under the keyid that it has without the unknown member.
            root.keyids.insert(6, keyid(6));
            assert_eq!(answers(&root), Err(OtherKeyid), "{text}");
            // And the other way round.
            root.keyids.insert(6, keyid_of(&text));
            root.texts.clear();
            assert_eq!(answers(&root), Err(OtherKeyid), "{text}");
        }
    }

    /// A key whose text is not canonical has no keyid: the file is refused as no canonical text.
    #[test]
    fn the_text_of_a_key_is_canonical_if_the_file_is() {
        for (known, spelt) in [
            (r#"{"keytype""#, r#"{ "keytype""#),
            (r#""ed25519","#, r#""ed2551\u0039","#),
            (r#""scheme":"ed25519""#, r#""scheme":"ed25519","a":0"#),
        ] {
            let mut root = second();
            root.texts.insert(6, key_text(6).replacen(known, spelt, 1));
            assert_ne!(root.key_text(6), key_text(6));
            assert_eq!(answers(&root), Err(NotCanonical), "{spelt}");
            root.keyids.insert(6, keyid(6));
            assert_eq!(answers(&root), Err(NotCanonical), "{spelt}");
        }
    }

    #[test]
    fn another_public_value_under_the_keyid_that_was() {
        let mut root = second();
        root.texts.insert(1, key_text(9));
        root.keyids.insert(1, keyid(1));
        assert_eq!(answers(&root), Err(OtherKeyid));
    }

    #[test]
    fn only_the_last_of_sixteen_keys() {
        let mut root = second();
        root.keys = (1..=16).collect();
        assert_eq!(answers(&root), Ok(()));
        let last = (1..=16).max_by_key(|key| keyid(*key)).expect("sixteen keys");
        root.keyids.insert(last, last_digit_changed(&keyid(last)));
        assert_eq!(answers(&root), Err(OtherKeyid));
    }

    #[test]
    fn tried_before_spec_version() {
        let mut root = second();
        root.spec_version = "2";
        assert_eq!(answers(&root), Err(SpecVersion));
        root.keyids.insert(5, last_digit_changed(&keyid(5)));
        assert_eq!(answers(&root), Err(OtherKeyid));
    }

    #[test]
    fn tried_after_every_form() {
        let mut wrong = second();
        wrong.keyids.insert(5, last_digit_changed(&keyid(5)));
        type Break = fn(&mut Root);
        let breaks: [Break; 5] = [
            |root| root.version = 0,
            |root| root.expires = "2030-02-30T00:00:00Z",
            |root| root.timestamp.1 = 2,
            |root| root.targets.0 = vec![4, 99],
            |root| {
                drop(
                    root.texts
                        .insert(6, key_text(1).replace("{\"keytype\"", "{\"a\":0,\"keytype\"")),
                )
            },
        ];
        for (number, break_form) in breaks.into_iter().enumerate() {
            let mut root = wrong.clone();
            break_form(&mut root);
            assert_eq!(answers(&root), Err(BrokenForm), "{number}");
        }
        // A broken entry stands before the signed part, a broken key in the table itself.
        let text = String::from_utf8(wrong.file(&[1])).expect("a text");
        for (old, new) in [
            ("\"sig\":\"", "\"sig\":\"0"),
            ("\"keytype\":\"ed25519\"", "\"keytype\":\"rsa\""),
        ] {
            let broken = text.replacen(old, new, 1);
            assert_eq!(
                State::install(broken.as_bytes(), &[1], NOW),
                Err(BrokenForm),
                "{broken}"
            );
        }
        let misplaced = text
            .replacen("\"_type\":\"root\",", "", 1)
            .replace("\"version\":2}", "\"version\":2,\"_type\":\"root\"}");
        assert_eq!(State::install(misplaced.as_bytes(), &[1], NOW), Err(NotCanonical));
    }

    #[test]
    fn tried_before_verdicts_and_what_is_held() {
        let mut root = Root::new(9);
        root.keyids.insert(1, last_digit_changed(&keyid(1)));
        let file = root.file(&[1]);
        for row in [&[][..], &[2], &[0], &[1, 1]] {
            assert_eq!(State::install(&file, row, NOW), Err(OtherKeyid), "{row:?}");
            assert_eq!(State::blank().root(&file, row, row), Err(OtherKeyid), "{row:?}");
            assert_eq!(complete().root(&file, row, row), Err(OtherKeyid), "{row:?}");
        }
    }

    /// Looks, entries and the other roles ask nothing of keyids.
    #[test]
    fn asked_of_key_tables_alone() {
        let mut root = second();
        root.keyids.insert(1, last_digit_changed(&keyid(1)));
        let file = root.file(&[1]);
        assert!(envelope::look(&file).is_ok());
        assert_eq!(envelope::entry(&file, 0).map(|entry| entry.keyid), Ok(root.keyid(1)));
        let stranger = "0".repeat(64);
        let entry = format!(r#"{{"signatures":[{{"keyid":"{stranger}","sig":"{stranger}{stranger}"}}],"signed":"#);
        let timestamp = String::from_utf8(timestamp_file(1, 1)).expect("a text");
        let (_, signed) = timestamp.split_once("\"signed\":").expect("a file");
        let mut state = installed(&Root::new(1));
        assert_eq!(
            state.timestamp(format!("{entry}{signed}").as_bytes(), &[1]),
            Err(TooFewHeldKeys)
        );
    }
}
