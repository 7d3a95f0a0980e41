//! Every refusal, with small files, and each call with the refusals that document 01 gives it. Derived by hand from document 01; the
//! digests are those that `sha256sum` gives.

mod small;

use gronwythal::{Refusal, State, check_image, entry, is_canonical, look, signed_part};
use small::{
    FAR, GOOD, KEY, KEYID, assert_refused, changed, root, root_of, snapshot_of, targets, targets_listing, timestamp,
};
use std::collections::BTreeSet;

/// The key of the small files with members that no form names.
const ANNOTATED: &str = r#"{"keytype":"ed25519","keyval":{"note":"é","public":"bbbbbbbbbbbbbbbbbbbbbbbbbbbbbbbbbbbbbbbbbbbbbbbbbbbbbbbbbbbbbbbb"},"scheme":"ed25519","x":["\"\\"]}"#;
const ANNOTATED_KEYID: &str = "bd35653e86e909102266f0374b792b9153d20e84ecaf723ccdcac1955094fa65"; // of ANNOTATED
const STRANGER: &str = "cccccccccccccccccccccccccccccccccccccccccccccccccccccccccccccccc";

/// A snapshot that lists a targets file of version 1 and these further names.
fn snapshot(version: u64, names: &str, expires: &str) -> Vec<u8> {
    snapshot_of(version, names, 1, expires)
}

const SNAPSHOT_DIGEST: &str = "9c974a24a36f024898d9f37fac45c5fb306f50b363523d21e409dcde6996d243"; // of snapshot(3, "", FAR)
const TARGETS_DIGEST: &str = "2e19a55450b45796079a7042bc545b05ccc3ae9289ccfd5bb679632356130044"; // of targets(1, FAR)

fn installed() -> State {
    State::install(&root(1), GOOD, 0).unwrap()
}

fn with_timestamp() -> State {
    let mut state = installed();
    state.timestamp(&timestamp(5, 3, FAR), GOOD).unwrap();
    state
}

fn with_snapshot() -> State {
    let mut state = with_timestamp();
    state.snapshot(&snapshot(3, "", FAR), GOOD).unwrap();
    state
}

fn with_list(file: &[u8]) -> State {
    let mut state = with_snapshot();
    state.targets(file, GOOD).unwrap();
    state
}

fn with_targets() -> State {
    with_list(&targets(1, FAR))
}

// ---- The calls, each with the refusals it uses, by rising number

/// Refusals that were seen, and that each left the state as it was.
struct Seen {
    state: State,
    numbers: BTreeSet<u8>,
}

impl Seen {
    fn on(state: State) -> Seen {
        Seen {
            state,
            numbers: BTreeSet::new(),
        }
    }

    #[track_caller]
    fn step(&mut self, stated: u8, call: impl FnOnce(&mut State) -> Result<(), Refusal>) -> &mut Seen {
        assert_refused(stated, &mut self.state, call);
        self.numbers.insert(stated);
        self
    }

    /// Goes on from another state.
    fn from(&mut self, state: State) -> &mut Seen {
        self.state = state;
        self
    }

    fn saw(&self, numbers: &[u8]) {
        assert_eq!(self.numbers.iter().copied().collect::<Vec<_>>(), numbers);
    }
}

fn at(mut state: State, start: i64) -> State {
    state.new_cycle(start).unwrap();
    state
}

fn undone(hex: &str) -> Vec<u8> {
    (0..hex.len())
        .step_by(2)
        .map(|at| u8::from_str_radix(&hex[at..at + 2], 16).unwrap())
        .collect()
}

fn too_long() -> Vec<u8> {
    vec![b' '; 32769]
}

/// The file with another keyid in each place of `KEYID`.
fn renamed(file: Vec<u8>, keyid: &str) -> Vec<u8> {
    String::from_utf8(file).unwrap().replace(KEYID, keyid).into_bytes()
}

/// A root whose keyid is not the digest of its key.
fn misnamed(version: u64) -> Vec<u8> {
    renamed(root(version), STRANGER)
}

#[test]
fn install_uses_1_to_5_and_10_and_16() {
    let refused = |file: &[u8], row: &[u8]| State::install(file, row, 9).unwrap_err().number();
    assert_eq!(refused(&too_long(), GOOD), 1);
    assert_eq!(refused(&[], GOOD), 2);
    assert_eq!(refused(&timestamp(1, 1, FAR), GOOD), 3);
    assert_eq!(refused(&root_of(1, FAR, "2.0"), GOOD), 4);
    assert_eq!(refused(&root(1), &[]), 5);
    assert_eq!(refused(&root(1), &[2]), 5);
    assert_eq!(refused(&root(1), &[0]), 10);
    assert_eq!(refused(&misnamed(1), GOOD), 16);
}

#[test]
fn a_refused_install_gives_the_blank_state() {
    let state = State::install(&root(1), &[0], 9).unwrap_or_default();
    assert_eq!(state.versions(), State::blank().versions());
    assert_eq!(state.versions().start, i64::MIN);
    assert_eq!(state.versions().root, None);
    let (file, row) = (root(1), [0u8]);
    let step = unsafe { gronwythal::raw::gronwythal_install(file.as_ptr(), file.len(), row.as_ptr(), 1, 9) };
    let told = gronwythal::raw::gronwythal_versions(step.state);
    assert_eq!(
        (step.answer, told.root.held, told.root.number, told.start),
        (10, false, 0, i64::MIN)
    );
}

#[test]
fn an_accepted_install_holds_the_root_alone() {
    let versions = installed().versions();
    assert_eq!(
        (versions.root, versions.timestamp, versions.snapshot, versions.targets),
        (Some(1), None, None, None)
    );
    // No expiry check.
    let late = State::install(&root_of(1, "1970-01-01T00:00:00Z", "1"), GOOD, 5).unwrap();
    assert_eq!(late.versions().start, 5);
}

#[test]
fn a_new_cycle_uses_17() {
    Seen::on(at(with_targets(), 1000))
        .step(17, |s| s.new_cycle(999))
        .step(17, |s| s.new_cycle(i64::MIN))
        .from(at(State::blank(), 1000))
        .step(17, |s| s.new_cycle(999))
        .saw(&[17]);
    let mut state = with_targets();
    assert_eq!(state.new_cycle(1000), Ok(()));
    assert_eq!(state.new_cycle(1000), Ok(()));
    assert_eq!(state.versions().start, 1000);
}

#[test]
fn root_uses_1_to_6_and_9_to_11_and_16() {
    Seen::on(installed())
        .step(1, |s| s.root(&too_long(), GOOD, GOOD))
        .step(2, |s| s.root(b"[1,]", GOOD, GOOD))
        .step(3, |s| s.root(b"[1]", GOOD, GOOD))
        .step(4, |s| s.root(&root_of(2, FAR, "10"), GOOD, GOOD))
        .step(5, |s| s.root(&root(2), &[1, 1], GOOD))
        .step(5, |s| s.root(&root(2), GOOD, &[]))
        .step(9, |s| s.root(&root(2), &[0], &[0]))
        .step(10, |s| s.root(&root(2), GOOD, &[0]))
        .step(11, |s| s.root(&root(1), GOOD, GOOD))
        .step(11, |s| s.root(&root(3), GOOD, GOOD))
        .step(16, |s| s.root(&misnamed(2), GOOD, GOOD))
        .from(State::blank())
        .step(6, |s| s.root(&root(1), GOOD, GOOD))
        .saw(&[1, 2, 3, 4, 5, 6, 9, 10, 11, 16]);
    let mut state = installed();
    assert_eq!(state.root(&root(2), GOOD, GOOD), Ok(()));
    assert_eq!(state.versions().root, Some(2));
}

#[test]
fn a_keyid_with_any_other_digit_is_16() {
    for digit in 0..64 {
        let here = KEYID.as_bytes()[digit] as char;
        for other in "0123456789abcdef".chars().filter(|other| *other != here) {
            let keyid = format!("{}{other}{}", &KEYID[..digit], &KEYID[digit + 1..]);
            let install = State::install(&renamed(root(1), &keyid), GOOD, 9);
            assert_eq!(install.unwrap_err(), Refusal::OtherKeyid, "{keyid}");
            let root = installed().root(&renamed(root(2), &keyid), GOOD, GOOD);
            assert_eq!(root, Err(Refusal::OtherKeyid), "{keyid}");
        }
    }
}

#[test]
fn a_keyid_is_the_digest_of_the_whole_text_of_its_key() {
    let install = |file: &[u8]| State::install(file, GOOD, 9).map(|_| ());
    let annotated = changed(root(1), KEY, ANNOTATED);
    assert_eq!(install(&renamed(annotated.clone(), ANNOTATED_KEYID)), Ok(()));
    assert_eq!(install(&annotated), Err(Refusal::OtherKeyid));
    assert_eq!(install(&renamed(root(1), ANNOTATED_KEYID)), Err(Refusal::OtherKeyid));
    // Both keyids are true, but the public value is one and the same.
    let both = format!(r#""keys":{{"{KEYID}":{KEY},"{ANNOTATED_KEYID}":{ANNOTATED}}}"#);
    let twice = changed(root(1), &format!(r#""keys":{{"{KEYID}":{KEY}}}"#), &both);
    assert_eq!(install(&twice), Err(Refusal::BadForm));
}

#[test]
fn a_keyid_is_judged_after_the_form_and_before_spec_version() {
    let other_spec = renamed(root_of(2, FAR, "2.0"), STRANGER);
    let bad_form = changed(other_spec.clone(), r#""threshold":1"#, r#""threshold":0"#);
    let upper_case = renamed(root_of(2, FAR, "2.0"), &STRANGER.to_uppercase());
    let in_the_table_alone = changed(root(2), &format!(r#""{KEYID}":"#), &format!(r#""{STRANGER}":"#));
    let cut = &bad_form[..bad_form.len() - 1];
    for (file, stated) in [
        (&too_long()[..], 1),
        (cut, 2),
        (&bad_form, 3),
        (&upper_case, 3),
        (&in_the_table_alone, 3),
        (&other_spec, 16),
        (&misnamed(2), 16),
    ] {
        // The rows would be refused with 5, 9 and 10, the version with 11 and the blank state with 6.
        for row in [GOOD, &[0], &[2], &[]] {
            assert_eq!(State::install(file, row, 9).unwrap_err().number(), stated);
            for mut state in [State::blank(), installed(), State::install(&root(2), GOOD, 9).unwrap()] {
                assert_eq!(state.root(file, row, row).unwrap_err().number(), stated);
            }
        }
    }
}

#[test]
fn timestamp_uses_1_to_7_and_9_and_11_to_14() {
    let file = timestamp(6, 3, FAR);
    Seen::on(with_timestamp())
        .step(1, |s| s.timestamp(&too_long(), GOOD))
        .step(2, |s| s.timestamp(b"", GOOD))
        .step(3, |s| s.timestamp(&root(1), GOOD))
        .step(4, |s| {
            s.timestamp(&changed(file.clone(), r#"version":"1""#, r#"version":"x""#), GOOD)
        })
        .step(5, |s| s.timestamp(&file, &[]))
        .step(9, |s| s.timestamp(&file, &[0]))
        .step(9, |s| s.timestamp(&changed(file.clone(), KEYID, STRANGER), GOOD))
        .step(11, |s| s.timestamp(&timestamp(4, 3, FAR), GOOD))
        .step(12, |s| s.timestamp(&timestamp(5, 3, FAR), GOOD))
        .step(13, |s| s.timestamp(&timestamp(6, 2, FAR), GOOD))
        .step(14, |s| s.timestamp(&timestamp(6, 3, "1970-01-01T00:00:00Z"), GOOD))
        .step(9, |s| s.timestamp(&timestamp(6, 3, "1970-01-01T00:00:00Z"), &[0]))
        .from(at(with_timestamp(), 1893456000))
        .step(7, |s| s.timestamp(&file, GOOD))
        .from(State::blank())
        .step(6, |s| s.timestamp(&file, GOOD))
        .saw(&[1, 2, 3, 4, 5, 6, 7, 9, 11, 12, 13, 14]);
    // Expired is "at or below the start time in force": one second before is not.
    assert_eq!(at(with_timestamp(), 1893455999).timestamp(&file, GOOD), Ok(()));
}

#[test]
fn snapshot_uses_1_to_9_and_11_and_13_and_14() {
    let file = snapshot(3, "", FAR);
    let listing = |listed: &str| {
        let mut state = installed();
        let timestamp = changed(timestamp(5, 3, FAR), r#"{"version":3}"#, listed);
        state.timestamp(&timestamp, GOOD).unwrap();
        state
    };
    let measured = |length: usize| listing(&format!(r#"{{"length":{length},"version":3}}"#));
    let hashed = |digest: &str| listing(&format!(r#"{{"hashes":{{"sha256":"{digest}"}},"version":3}}"#));
    let named = {
        let mut state = with_timestamp();
        state
            .snapshot(&snapshot(3, r#""other.json":{"version":4},"#, FAR), GOOD)
            .unwrap();
        state
    };
    Seen::on(with_timestamp())
        .step(1, |s| s.snapshot(&too_long(), GOOD))
        .step(2, |s| s.snapshot(b"", GOOD))
        .step(3, |s| s.snapshot(&root(1), GOOD))
        .step(4, |s| {
            s.snapshot(&changed(file.clone(), r#"version":"1""#, r#"version":"""#), GOOD)
        })
        .step(5, |s| s.snapshot(&file, &[1, 0]))
        .step(9, |s| s.snapshot(&file, &[0]))
        .step(11, |s| s.snapshot(&snapshot(4, "", FAR), GOOD))
        .step(14, |s| s.snapshot(&snapshot(3, "", "1970-01-01T00:00:00Z"), GOOD))
        .from(at(with_timestamp(), 1893456000))
        .step(7, |s| s.snapshot(&file, GOOD))
        .from(measured(file.len() + 1))
        .step(8, |s| s.snapshot(&file, GOOD))
        .from(hashed(TARGETS_DIGEST))
        .step(8, |s| s.snapshot(&file, GOOD))
        .from(named)
        .step(13, |s| s.snapshot(&file, GOOD))
        .step(13, |s| {
            s.snapshot(&snapshot(3, r#""other.json":{"version":3},"#, FAR), GOOD)
        })
        .from(installed())
        .step(6, |s| s.snapshot(&file, GOOD))
        .saw(&[1, 2, 3, 4, 5, 6, 7, 8, 9, 11, 13, 14]);
    assert_eq!(measured(file.len()).snapshot(&file, GOOD), Ok(()));
    assert_eq!(hashed(SNAPSHOT_DIGEST).snapshot(&file, GOOD), Ok(()));
}

#[test]
fn targets_uses_1_to_9_and_11_and_14() {
    let file = targets(1, FAR);
    let hashed = |digest: &str| {
        let listed = format!(r#"{{"hashes":{{"sha256":"{digest}"}},"version":1}}"#);
        let mut state = with_timestamp();
        let snapshot = changed(snapshot(3, "", FAR), r#"{"version":1}"#, &listed);
        state.snapshot(&snapshot, GOOD).unwrap();
        state
    };
    Seen::on(with_snapshot())
        .step(1, |s| s.targets(&too_long(), GOOD))
        .step(2, |s| s.targets(b"", GOOD))
        .step(3, |s| s.targets(&root(1), GOOD))
        .step(4, |s| {
            s.targets(&changed(file.clone(), r#"version":"1""#, r#"version":"2""#), GOOD)
        })
        .step(5, |s| s.targets(&file, &[]))
        .step(9, |s| s.targets(&file, &[0]))
        .step(11, |s| s.targets(&targets(2, FAR), GOOD))
        .step(14, |s| s.targets(&targets(1, "1970-01-01T00:00:00Z"), GOOD))
        .from(at(with_snapshot(), 1893456000))
        .step(7, |s| s.targets(&file, GOOD))
        .from(hashed(SNAPSHOT_DIGEST))
        .step(8, |s| s.targets(&file, GOOD))
        .from(with_timestamp())
        .step(6, |s| s.targets(&file, GOOD))
        .saw(&[1, 2, 3, 4, 5, 6, 7, 8, 9, 11, 14]);
    assert_eq!(hashed(TARGETS_DIGEST).targets(&file, GOOD), Ok(()));
}

#[test]
fn find_uses_1_to_4_and_6_to_8_and_15() {
    let file = targets(1, FAR);
    let state = with_targets();
    let other_spec = changed(file.clone(), r#"version":"1""#, r#"version":"2""#);
    let other_length = changed(file.clone(), r#""length":5"#, r#""length":6"#);
    let other_signature = changed(file.clone(), r#""sig":"0"#, r#""sig":"1"#);
    // Its number, and how many names were compared.
    let refused = |state: &State, file: &[u8], path: &[u8]| {
        let (image, compared) = state.find_counted(file, path);
        assert_eq!(state.find(file, path), image);
        (image.unwrap_err().number(), compared)
    };
    assert_eq!(refused(&state, &too_long(), b"i"), (1, 0));
    assert_eq!(refused(&state, b"", b"i"), (2, 0));
    assert_eq!(refused(&state, &root(1), b"i"), (3, 0));
    assert_eq!(refused(&state, &other_spec, b"i"), (4, 0));
    assert_eq!(refused(&with_snapshot(), &file, b"i"), (6, 0));
    assert_eq!(refused(&at(with_targets(), 1893456000), &file, b"i"), (7, 0));
    assert_eq!(refused(&state, &other_length, b"i"), (8, 0));
    assert_eq!(refused(&state, &other_signature, b"i"), (8, 0));
    assert_eq!(refused(&state, &file, b"j"), (15, 1));
    assert_eq!(refused(&state, &file, b""), (15, 1));
    assert_eq!(refused(&state, &file, &[b'i'; 129]), (15, 1));
    let image = state.find(&file, b"i").unwrap();
    assert_eq!((image.length, image.digest), (5, [0x11; 32]));
}

/// With its backslash on, the third name would come after the fourth. The fifth is as long as one may be.
#[test]
fn find_compares_the_smaller_names_and_one_more_where_one_is_left() {
    let file = targets_listing(&["a", "a!", r#"a\""#, "a#", &"m".repeat(128), "é"], 1, FAR);
    let state = with_list(&file);
    let listed: [(&[u8], u64, usize); 6] = [
        (b"a", 5, 1),
        (b"a!", 6, 2),
        (b"a\"", 7, 3),
        (b"a#", 8, 4),
        (&[b'm'; 128], 9, 5),
        ("é".as_bytes(), 10, 6),
    ];
    for (path, length, stated) in listed {
        let (image, compared) = state.find_counted(&file, path);
        assert_eq!((image.unwrap().length, compared), (length, stated));
        assert_eq!(state.find(&file, path), image);
    }
    let not_listed: [(&[u8], usize); 12] = [
        (b"", 1),             // none is smaller
        (b"A", 1),            // none
        (&[b'A'; 129], 1),    // none
        (b"a ", 2),           // a
        (b"a\\", 5),          // a, a!, a", a#
        (&[b'a'; 129], 5),    // a, a!, a", a#
        (&[b'm'; 127], 5),    // a, a!, a", a#
        (&[b'm'; 129], 6),    // all but the last
        (b"n", 6),            // all but the last
        (b"\xc3", 6),         // all but the last
        ("é!".as_bytes(), 6), // all, and none is left
        (&[0xff; 129], 6),    // all, and none is left
    ];
    for (path, stated) in not_listed {
        let found = state.find_counted(&file, path);
        assert_eq!(found, (Err(Refusal::NotListed), stated), "{}", path.escape_ascii());
    }
}

#[test]
fn find_compares_as_many_names_as_are_listed() {
    let names: Vec<String> = (0..256).map(|place| format!("{place:03}")).collect();
    let file = targets_listing(&names, 1, FAR);
    let state = with_list(&file);
    for (place, name) in names.iter().enumerate() {
        let (image, compared) = state.find_counted(&file, name.as_bytes());
        assert_eq!((image.unwrap().length, compared), (5 + place as u64, place + 1));
    }
    assert_eq!(state.find_counted(&file, b"256"), (Err(Refusal::NotListed), 256));
}

#[test]
fn find_compares_nothing_in_an_empty_list() {
    let empty = targets_listing::<&str>(&[], 1, FAR);
    for path in [&b""[..], b"a", &[b'a'; 129]] {
        let found = with_list(&empty).find_counted(&empty, path);
        assert_eq!(found, (Err(Refusal::NotListed), 0));
    }
}

#[test]
fn an_image_uses_5_and_8() {
    let image = with_targets().find(&targets(1, FAR), b"i").unwrap();
    assert_eq!(image.check(5, &[0x11; 32]), Ok(()));
    assert_eq!(image.check(4, &[0x11; 32]), Err(Refusal::OtherContent));
    assert_eq!(image.check(5, &[0x12; 32]), Err(Refusal::OtherContent));
    assert_eq!(image.check(5, &[0x11; 31]), Err(Refusal::BadArgument));
    assert_eq!(check_image(u64::MAX, &[7; 32], u64::MAX, &[7; 32]), Ok(()));
    assert_eq!(check_image(1, &[], 2, &[7; 32]), Err(Refusal::BadArgument));
    assert_eq!(check_image(1, &[], 1, &[]), Err(Refusal::BadArgument));
}

#[test]
fn a_key_uses_6_and_15() {
    let state = installed();
    assert_eq!(state.key(KEYID.as_bytes()), Ok([0xbb; 32]));
    assert_eq!(State::blank().key(KEYID.as_bytes()), Err(Refusal::NotHeld));
    assert_eq!(State::blank().key(b"no keyid"), Err(Refusal::NotHeld));
    assert_eq!(state.key(STRANGER.as_bytes()), Err(Refusal::NotListed));
    assert_eq!(state.key(KEYID.to_uppercase().as_bytes()), Err(Refusal::NotListed));
    assert_eq!(state.key(&undone(KEYID)), Err(Refusal::NotListed));
    assert_eq!(state.key(b""), Err(Refusal::NotListed));
}

#[test]
fn looking_in_uses_1_to_3_and_an_entry_15() {
    let file = root(1);
    assert_eq!(look(&too_long()), Err(Refusal::TooLong));
    assert_eq!(look(b""), Err(Refusal::NotText));
    assert_eq!(look(b"{}"), Err(Refusal::BadForm));
    assert_eq!(signed_part(&too_long()), Err(Refusal::TooLong));
    assert_eq!(entry(&too_long(), 0), Err(Refusal::TooLong));
    assert_eq!(entry(b"[01]", 0), Err(Refusal::NotText));
    assert_eq!(entry(b"null", 0), Err(Refusal::BadForm));
    assert_eq!(entry(&file, 1), Err(Refusal::NotListed));
    assert_eq!(entry(&file, usize::MAX), Err(Refusal::NotListed));
    let read = entry(&file, 0).unwrap();
    assert_eq!((&read.keyid[..], read.sig), (&undone(KEYID)[..], [0; 64]));
    assert_eq!(read.keyid_hex(), *KEYID.as_bytes().first_chunk::<64>().unwrap());
    let part = signed_part(&file).unwrap();
    assert!(part.starts_with(br#"{"_type":"root","#) && part.ends_with(br#""version":1}"#));
    assert_eq!(part.as_ptr_range().end, file[..file.len() - 1].as_ptr_range().end);
}

#[test]
fn text_alone() {
    assert!(is_canonical(br#"{"a":1,"a!":2}"#));
    for text in [r#"{"a":1,"a":2}"#, "[-0]", "[01]", "[1,]", ""] {
        assert!(!is_canonical(text.as_bytes()), "{text}");
    }
}

// ---- The refusals themselves

#[test]
fn refusals_have_the_numbers_and_words_of_the_paper() {
    for (refusal, number) in Refusal::ALL.into_iter().zip(1..=17) {
        assert_eq!(refusal.number(), number);
        assert_eq!(Refusal::numbered(number), Some(refusal));
    }
    assert_eq!(Refusal::numbered(0), None);
    assert_eq!(Refusal::numbered(18), None);
    assert_eq!(Refusal::WrongVersion.number(), 11);
    assert_eq!(Refusal::NoNews.to_string(), "same timestamp version: normal, no news");
    assert_eq!(
        Refusal::EarlierStart.to_string(),
        "start time earlier than the latest one the state has had"
    );
    let words: BTreeSet<String> = Refusal::ALL.iter().map(Refusal::to_string).collect();
    assert_eq!(words.len(), 17);
}

#[test]
fn a_clone_goes_its_own_way() {
    let state = installed();
    let mut other = state.clone();
    other.new_cycle(77).unwrap();
    assert_eq!((state.versions().start, other.versions().start), (0, 77));
    assert!(format!("{other:?}").contains("77"));
}
