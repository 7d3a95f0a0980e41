//! The stories of examples/shelf through this crate. A line `#= ANSWER` behind a call has its answer, derived by hand from document 01; its
//! words must be the first of what the call answers. Calls and answers have the form of docs/REPLAY.md.

use gronwythal::{Refusal, State, Versions, check_image, entry, look, sha256};
use std::fs;
use std::path::{Path, PathBuf};

fn shelf() -> PathBuf {
    Path::new(env!("CARGO_MANIFEST_DIR")).join("../../examples/shelf")
}

// ---- Words of a line

fn bytes(word: &str) -> Vec<u8> {
    match word.split_at(1) {
        ("-", "") => Vec::new(),
        ("'", text) => text.as_bytes().to_vec(),
        ("@", name) => fs::read(shelf().join(name)).unwrap_or_else(|error| panic!("{name}: {error}")),
        _ => (0..word.len() / 2)
            .map(|i| u8::from_str_radix(&word[2 * i..2 * i + 2], 16).unwrap())
            .collect(),
    }
}

fn hex(bytes: &[u8]) -> String {
    bytes.iter().map(|byte| format!("{byte:02x}")).collect()
}

fn number<T>(answer: &Result<T, Refusal>) -> u8 {
    answer.as_ref().err().map_or(0, |refusal| refusal.number())
}

fn shown(versions: Versions) -> String {
    let show = |version: Option<u64>| version.map_or("-".into(), |number| number.to_string());
    let Versions {
        root,
        timestamp,
        snapshot,
        targets,
        start,
    } = versions;
    format!(
        "root={} timestamp={} snapshot={} targets={} time={start}",
        show(root),
        show(timestamp),
        show(snapshot),
        show(targets)
    )
}

// ---- Calls

/// What a line answers. A step shows the state after it.
fn played(state: &mut State, line: &str) -> String {
    let words: Vec<&str> = line.split(' ').collect();
    let arg = |i: usize| bytes(words[i]);
    let call = words[0];
    let step = match call {
        "install" => {
            let installed = State::install(&arg(1), &arg(2), words[3].parse().unwrap());
            let answer = number(&installed);
            *state = installed.unwrap_or_default();
            answer
        }
        "cycle" => number(&state.new_cycle(words[1].parse().unwrap())),
        "root" => number(&state.root(&arg(1), &arg(2), &arg(3))),
        "timestamp" => number(&state.timestamp(&arg(1), &arg(2))),
        "snapshot" => number(&state.snapshot(&arg(1), &arg(2))),
        "targets" => number(&state.targets(&arg(1), &arg(2))),
        _ => return asked(state, &words),
    };
    format!("{call} {step} {}", shown(state.versions()))
}

/// What a call that changes nothing answers.
fn asked(state: &State, words: &[&str]) -> String {
    let arg = |i: usize| bytes(words[i]);
    let count = |i: usize| words[i].parse().unwrap();
    match words[0] {
        "find" => {
            let (image, compared) = state.find_counted(&arg(1), &arg(2));
            let (length, digest) = image.map_or((0, [0; 32]), |image| (image.length, image.digest));
            format!("find {} {length} {} {compared}", number(&image), hex(&digest))
        }
        "key" => match state.key(&arg(1)) {
            Ok(public) => format!("key 0 {}", hex(&public)),
            Err(refusal) => format!("key {}", refusal.number()),
        },
        "sha256" => format!("sha256 {}", hex(&sha256(&arg(1)))),
        "image" => format!("image {}", number(&check_image(count(1), &arg(2), count(3), &arg(4)))),
        other => panic!("no call of the stories: {other}"),
    }
}

/// Plays a story and gives the number of its calls.
fn play(name: &str) -> usize {
    let story = fs::read_to_string(shelf().join(name)).unwrap();
    let mut state = State::blank();
    let mut calls = 0;
    let mut answer = None;
    for (at, line) in story.lines().enumerate() {
        let place = at + 1;
        if let Some(stated) = line.strip_prefix("#= ") {
            let answer = answer
                .take()
                .unwrap_or_else(|| panic!("{name}:{place}: follows no call"));
            assert!(
                format!("{answer} ").starts_with(&format!("{stated} ")),
                "{name}:{place}: {stated}, but {answer}"
            );
        } else if !line.is_empty() && !line.starts_with('#') {
            assert_eq!(answer, None, "{name}:{place}: the call before has no stated answer");
            answer = Some(played(&mut state, line));
            calls += 1;
        }
    }
    assert_eq!(answer, None, "{name}: the last call has no stated answer");
    calls
}

#[test]
fn an_update() {
    assert_eq!(play("1-update.txt"), 13);
}

#[test]
fn a_rollback() {
    assert_eq!(play("2-rollback.txt"), 11);
}

#[test]
fn a_stolen_key() {
    assert_eq!(play("3-stolen-key.txt"), 8);
}

#[test]
fn an_expired_list() {
    assert_eq!(play("4-expired-list.txt"), 13);
}

#[test]
fn another_key() {
    assert_eq!(play("5-other-key.txt"), 11);
}

#[test]
fn a_stolen_laptop() {
    assert_eq!(play("6-stolen-laptop.txt"), 15);
}

#[test]
fn versions_from_dates() {
    assert_eq!(play("7-versions-from-dates.txt"), 22);
}

#[test]
fn a_flat_battery() {
    assert_eq!(play("8-flat-battery.txt"), 26);
}

// ---- What the stories do not ask

/// The last digit of a keyid leaves the key table in order.
#[test]
fn every_keyid_of_a_key_table_is_judged() {
    let file = String::from_utf8(bytes("@root-1.json")).unwrap();
    let keyids: Vec<&str> = file
        .match_indices(r#"":{"keytype""#)
        .map(|(end, _)| &file[end - 64..end])
        .collect();
    assert_eq!(keyids.len(), 5);
    for keyid in keyids {
        let other = format!("{}{}", &keyid[..63], if keyid.ends_with('0') { '1' } else { '0' });
        let install = State::install(file.replace(keyid, &other).as_bytes(), &[1, 1], 0);
        assert_eq!(install.unwrap_err(), Refusal::OtherKeyid, "{keyid}");
    }
}

#[test]
fn a_held_key_is_that_of_the_file() {
    let state = State::install(&bytes("@root-1.json"), &[1, 1], 0).unwrap();
    let keyid = b"c2220a4f3b368395bb6445ec9b9ee76db0ab7eec6dfed477046a4aeb3b415370";
    let public = bytes("ce5414f9b01382ca0daa4f0789934e31aef250d3d813e1c3ebeed39efa593142");
    assert_eq!(state.key(keyid).unwrap()[..], public);
}

#[test]
fn entries_are_those_of_the_file() {
    let file = bytes("@root-1.json");
    let text = std::str::from_utf8(&file).unwrap();
    assert_eq!(look(&file).unwrap().entries, 2);
    for place in 0..2 {
        let entry = entry(&file, place).unwrap();
        let written = format!(
            r#"{{"keyid":"{}","sig":"{}"}}"#,
            std::str::from_utf8(&entry.keyid_hex()).unwrap(),
            hex(&entry.sig)
        );
        assert_eq!(
            text.match_indices("{\"keyid\"").nth(place).unwrap().0,
            text.find(&written).unwrap()
        );
    }
    assert_eq!(entry(&file, 2), Err(Refusal::NotListed));
}
