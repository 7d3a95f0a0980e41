//! The keyids of a key table: "the hex digest of the canonical text of its key, unknown members included", else 16, "tried
//! between 3 and 4". Every answer is stated.

use std::collections::BTreeMap;

use super::Recorder;
use super::forms::{self, Kind, Stage};
use crate::calls::Call;
use crate::compare::{Cases, Group};
use crate::shelf::files::{self, KEYS_WITH_MORE, LONGEST, Role, Root, keyid};
use crate::shelf::keyids::{mended, renamed};
use crate::shelf::tree::{Place, Tree, number, object, text};

const LATER: i64 = 2_000_000_000;

const ACCEPTED: u8 = 0;
const TOO_LONG: u8 = 1;
const NOT_CANONICAL: u8 = 2;
const BROKEN: u8 = 3;
const SPEC_VERSION: u8 = 4;
const OTHER_KEYID: u8 = 16;

/// The group.
pub fn groups() -> Vec<Group> {
    vec![Group {
        name: "keyids",
        calls: &["look", "entry", "install", "root", "timestamp", "key", "state", "cycle"],
        cases: |_| keyids(),
        least: 4_000,
        shares: &[
            ("install 0", 1),
            ("install 3", 1),
            ("install 16", 10),
            ("root 0", 1),
            ("root 3", 1),
            ("root 16", 10),
        ],
        complete: &[],
        renewed: false,
    }]
}

fn keyids() -> Cases {
    let parts: [fn(&mut Recorder); 8] = [
        asked_of_key_tables_alone,
        every_digit,
        in_the_table_alone,
        swapped,
        other_keys,
        edited_members,
        added_members,
        before_and_after,
    ];
    Box::new(parts.into_iter().flat_map(|part| {
        let mut script = Recorder::default();
        part(&mut script);
        script.take()
    }))
}

/// The numbers of the keys in the table: those that the roles name, one that none does, and some with unknown members.
fn numbers() -> Vec<usize> {
    let with_more = KEYS_WITH_MORE.take(6);
    (1..=9).chain(with_more).collect()
}

/// A root that its stage accepts; it is version 2, and a key with unknown members signs too.
fn sound() -> Tree {
    let mut root = Root::new(2, LATER);
    root.keys = numbers().into_iter().map(|key| (key, key)).collect();
    root.root = Role::new([1, 2, KEYS_WITH_MORE.start], 1);
    files::file(root.signed(), &[1, 2, KEYS_WITH_MORE.start])
}

/// Offers a file as a first root and as a later one.
fn tried(script: &mut Recorder, file: &Tree, answer: u8) {
    script.stated(forms::install(file), format!("install {answer}"));
    Stage::new(Kind::Root).play(script, file, Some(answer));
}

fn with_keyid(file: &Tree, old: &str, new: &str) -> Tree {
    renamed(file, &BTreeMap::from([(old.to_string(), new.to_string())]))
}

/// The key under this keyid in a file.
fn key<'a>(file: &'a mut Tree, keyid: &str) -> &'a mut Tree {
    file.member(&["signed", "keys", keyid])
}

/// Each keyid with each of its digits changed, wherever it stands; in upper case; too short and too long.
fn every_digit(script: &mut Recorder) {
    let sound = sound();
    tried(script, &sound, ACCEPTED);
    for key in numbers() {
        let keyid = keyid(key);
        for place in 0..keyid.len() {
            tried(
                script,
                &with_keyid(&sound, keyid, &digit_changed(keyid, place)),
                OTHER_KEYID,
            );
        }
        for (other, answer) in [
            (keyid.to_uppercase(), BROKEN),
            (keyid[..63].to_string(), BROKEN),
            (format!("{keyid}0"), BROKEN),
            ("0".repeat(64), OTHER_KEYID),
            ("f".repeat(64), OTHER_KEYID),
            (files::public(key).to_string(), OTHER_KEYID),
            (keyid.chars().rev().collect(), OTHER_KEYID),
        ] {
            tried(script, &with_keyid(&sound, keyid, &other), answer);
        }
    }
}

fn digit_changed(keyid: &str, place: usize) -> String {
    let value = u8::from_str_radix(&keyid[place..=place], 16).expect("hex");
    format!("{}{:x}{}", &keyid[..place], value ^ 1, &keyid[place + 1..])
}

/// A keyid that is changed in the table only: a role that names it names no key of the table.
fn in_the_table_alone(script: &mut Recorder) {
    for key in numbers() {
        let mut file = sound();
        let keys = file.member(&["signed", "keys"]).members();
        let member = keys.iter_mut().find(|member| member.0 == keyid(key));
        let (name, _) = member.expect("a key of the table");
        *name = digit_changed(name, 63);
        let is_named = key <= 8 || key == KEYS_WITH_MORE.start;
        tried(script, &file, if is_named { BROKEN } else { OTHER_KEYID });
    }
}

/// Every two keys, each under the keyid of the other.
fn swapped(script: &mut Recorder) {
    let numbers = numbers();
    for (place, one) in numbers.iter().enumerate() {
        for other in &numbers[place + 1..] {
            let (one, other) = (keyid(*one).to_string(), keyid(*other).to_string());
            let both = BTreeMap::from([(one.clone(), other.clone()), (other, one)]);
            tried(script, &renamed(&sound(), &both), OTHER_KEYID);
        }
    }
}

/// Another key under each keyid: one that the table has not, or one that it has, which is one public value under two keyids.
fn other_keys(script: &mut Recorder) {
    for number in numbers() {
        let mut file = sound();
        *key(&mut file, keyid(number)) = files::key(number + 100).tree.clone();
        tried_edited(script, &file);
        let taken = if number == 1 { 2 } else { 1 };
        *key(&mut file, keyid(number)) = files::key(taken).tree.clone();
        tried(script, &file, BROKEN);
    }
}

/// Offers a root in which a key was edited that still has its form: under the keyid that it had, and under its own.
fn tried_edited(script: &mut Recorder, file: &Tree) {
    tried(script, file, OTHER_KEYID);
    tried(script, &mended(file), ACCEPTED);
}

/// Every value inside every key replaced, and every member and item removed. What the form asks for is then broken.
fn edited_members(script: &mut Recorder) {
    for number in numbers() {
        let keyid = keyid(number);
        let sound = sound();
        for place in places_inside(&files::key(number).tree) {
            let mut replaced = sound.clone();
            *key(&mut replaced, keyid).at(&place) = text("edited");
            let mut removed = sound.clone();
            remove(key(&mut removed, keyid), &place);
            for file in [replaced, removed] {
                match is_of_the_form(&files::key(number).tree, &place) {
                    true => tried(script, &file, BROKEN),
                    false => tried_edited(script, &file),
                }
            }
        }
        for bit in [1, 2, 4, 8] {
            let mut file = sound.clone();
            let public = files::public(number);
            let last = u8::from_str_radix(&public[63..], 16).expect("hex");
            let other = format!("{}{:x}", &public[..63], last ^ bit);
            *key(&mut file, keyid).member(&["keyval", "public"]) = text(other);
            tried_edited(script, &file);
        }
    }
}

fn places_inside(key: &Tree) -> impl Iterator<Item = Place> {
    key.places().into_iter().filter(|place| !place.is_empty())
}

/// Whether a place inside of a key is one that the form asks for.
fn is_of_the_form(key: &Tree, place: &[usize]) -> bool {
    let mut key = key.clone();
    let (first, rest) = place.split_first().expect("a place inside");
    let name = key.members()[*first].0.clone();
    match (&*name, rest) {
        ("keytype" | "scheme" | "keyval", []) => true,
        ("keyval", [inner, ..]) => key.member(&["keyval"]).members()[*inner].0 == "public",
        _ => false,
    }
}

fn remove(tree: &mut Tree, place: &[usize]) {
    let (number, above) = place.split_last().expect("a place inside");
    match tree.at(above) {
        Tree::Object(members) => drop(members.remove(*number)),
        Tree::Array(items) => drop(items.remove(*number)),
        Tree::Raw(_) | Tree::Text(_) => unreachable!("nothing is inside"),
    }
}

/// Unknown members in every object of every key, with names before, between and behind the others, and as deep as may be: "read
/// as text and otherwise passed over", and part of what is digested.
fn added_members(script: &mut Recorder) {
    const DEPTH_OF_A_KEY: usize = 4;
    const DEEPEST: usize = 8;
    for number in numbers() {
        for place in object_places(&files::key(number).tree) {
            let room = DEEPEST - DEPTH_OF_A_KEY - place.len();
            for name in ["!", "keyval!", "~"] {
                for value in unknown_values(room) {
                    if let Some(file) = with_member(number, &place, name, value) {
                        tried_edited(script, &file);
                    }
                }
            }
            if let Some(file) = with_member(number, &place, "!", nested(room + 1)) {
                tried(script, &file, NOT_CANONICAL);
                tried(script, &mended(&file), NOT_CANONICAL);
            }
        }
    }
}

/// Values for which there is room for so many levels.
fn unknown_values(room: usize) -> Vec<Tree> {
    let mut values = vec![number(0), text("\"\\\u{20ac}"), nested(room)];
    if room > 0 {
        values.push(object([("public", text("0".repeat(64))), ("scheme", text("ed25519"))]));
    }
    values
}

/// An array of arrays with so many levels.
fn nested(levels: usize) -> Tree {
    match levels {
        0 => Tree::Raw("null".to_string()),
        _ => Tree::Array(vec![nested(levels - 1)]),
    }
}

/// The places of the objects in a key, its own first.
fn object_places(key: &Tree) -> Vec<Place> {
    let mut key = key.clone();
    let mut places = key.places();
    places.retain(|place| matches!(key.at(place), Tree::Object(_)));
    places
}

/// The sound root with a further member in an object of one of its keys; `None` if the object has that member.
fn with_member(number: usize, place: &[usize], name: &str, value: Tree) -> Option<Tree> {
    let mut file = sound();
    let object = key(&mut file, keyid(number)).at(place);
    if object.get(name).is_some() {
        return None;
    }
    object.insert(name, value);
    Some(file)
}

/// What is tried before 16, and what after it.
fn before_and_after(script: &mut Recorder) {
    let sound = sound();
    let wrong = with_keyid(&sound, keyid(9), &digit_changed(keyid(9), 0));
    let broken: [(&[&str], Tree); 10] = [
        (&["signatures"], object::<&str>([])),
        (&["signed", "_type"], text("targets")),
        (&["signed", "expires"], text("2030-02-30T00:00:00Z")),
        (&["signed", "version"], number(0)),
        (&["signed", "spec_version"], number(1)),
        (&["signed", "consistent_snapshot"], number(0)),
        (&["signed", "roles"], object::<&str>([])),
        (&["signed", "roles", "timestamp", "threshold"], number(3)),
        (&["signed", "keys", keyid(1), "keytype"], text("rsa")),
        (
            &["signed", "keys", keyid(7), "keyval", "public"],
            text(files::public(2)),
        ),
    ];
    for (names, value) in broken {
        let mut file = wrong.clone();
        *file.member(names) = value;
        tried(script, &file, BROKEN);
        for spec_version in ["2", "1"] {
            if names != ["signed", "spec_version"] {
                *file.member(&["signed", "spec_version"]) = text(spec_version);
                tried(script, &file, BROKEN);
            }
        }
    }
    for (file, with_known, with_other) in [(&sound, ACCEPTED, SPEC_VERSION), (&wrong, OTHER_KEYID, OTHER_KEYID)] {
        for (spec_version, answer) in [
            ("1", with_known),
            ("1.0.26", with_known),
            ("2", with_other),
            ("", with_other),
        ] {
            let mut file = file.clone();
            *file.member(&["signed", "spec_version"]) = text(spec_version);
            tried(script, &file, answer);
        }
    }
    let written = wrong.written();
    let too_long = files::padded(&wrong, LONGEST + 1, true);
    let at_the_limit = files::padded(&wrong, LONGEST, true);
    for (file, answer) in [
        (too_long, TOO_LONG),
        (at_the_limit, OTHER_KEYID),
        ([&written[..], b" "].concat(), NOT_CANONICAL),
        (written[..written.len() - 1].to_vec(), NOT_CANONICAL),
    ] {
        Stage::new(Kind::Root).play_bytes(script, file, 3, Some(answer));
    }
    before_the_rest(script, &written);
}

/// 16 comes before everything that is not a matter of the file alone: verdicts, what is held, versions.
fn before_the_rest(script: &mut Recorder, wrong: &[u8]) {
    let blank = "root=- timestamp=- snapshot=- targets=- time=-9223372036854775808";
    let rows = [vec![], vec![0; 3], vec![2; 3], vec![1; 4], vec![1; 3]];
    for row in &rows {
        let call = Call::Install {
            file: wrong.to_vec(),
            row: row.clone(),
            time: 7,
        };
        script.stated(call, format!("install 16 {blank}"));
        script.stated(root_call(wrong, row), format!("root 16 {blank}"));
    }
    // Here root 2 is held, and so the version is wrong too.
    script.stated(forms::install(&sound()), "install 0 root=2");
    for row in &rows {
        script.stated(root_call(wrong, row), "root 16 root=2");
    }
}

fn root_call(file: &[u8], row: &[u8]) -> Call {
    Call::Root {
        file: file.to_vec(),
        held_row: row.to_vec(),
        own_row: row.to_vec(),
    }
}

/// Looks and entries ask nothing of keyids, nor do files without a key table.
fn asked_of_key_tables_alone(script: &mut Recorder) {
    let other = digit_changed(keyid(1), 5);
    let wrong = with_keyid(&sound(), keyid(1), &other).written();
    script.stated(Call::Look(wrong.clone()), "look 0");
    let call = Call::Entry { file: wrong, place: 0 };
    script.stated(call, format!("entry 0 {other}"));

    script.stated(forms::install(&sound()), "install 0");
    let mut timestamp = forms::valid(Kind::Timestamp, 1);
    let keys = object([(keyid(1), number(0)), ("a", files::key(1).tree.clone())]);
    timestamp.member(&["signed"]).insert("keys", keys);
    let entry = timestamp.member(&["signatures"]).items()[1].member(&["keyid"]);
    *entry = text(other);
    script.stated(forms::offered(Kind::Timestamp, &timestamp), "timestamp 0");
}

#[cfg(test)]
mod tests {
    use super::{is_of_the_form, numbers, sound};
    use crate::shelf::files;
    use crate::shelf::tree::{object, text};

    #[test]
    fn the_sound_root_is_one_and_has_keys_of_every_kind() {
        let says = paper::forms::root(&sound().written()).unwrap().says;
        assert_eq!(says.keys.len(), numbers().len());
        let lengths = numbers().into_iter().map(|key| files::key(key).tree.written().len());
        let lengths: std::collections::BTreeSet<usize> = lengths.collect();
        assert!(lengths.len() >= 5, "{lengths:?}");
    }

    #[test]
    fn what_the_form_asks_for() {
        let mut key = files::key(1).tree.clone();
        key.insert("~", object([("public", text(""))]));
        key.member(&["keyval"]).insert("~", text(""));
        let asked: Vec<_> = key.places().into_iter().filter(|place| !place.is_empty()).collect();
        let asked: Vec<_> = asked.iter().map(|place| is_of_the_form(&key, place)).collect();
        // keytype, keyval, its public, its other member, scheme, the other member, what is in it.
        assert_eq!(asked, [true, true, true, false, true, false, false]);
    }
}
