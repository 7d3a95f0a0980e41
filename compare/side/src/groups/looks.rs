//! `look FILE` and `entry FILE PLACE`: is it an envelope, where is its signed part, what are its entries?

use super::{all_of, damage, mutants, names, texts};
use crate::calls::Call;
use crate::compare::{Case, Cases, Group};
use crate::random::Random;
use crate::shelf::files;
use crate::shelf::tree::{Tree, object};

/// How many envelopes are generated; each is looked into, and asked for some entries.
const GENERATED: usize = 12_000;

/// The groups of these calls.
pub fn groups() -> Vec<Group> {
    vec![
        Group {
            name: "look and entry, by name",
            calls: &["look", "entry"],
            cases: |_| by_name(),
            least: 20,
            shares: &[("look 0", 10), ("look 3", 10)],
            complete: &["look"],
            renewed: false,
        },
        Group {
            name: "look and entry, generated",
            calls: &["look", "entry"],
            cases: generated,
            least: 3 * GENERATED,
            shares: &[
                ("look 0", 10),
                ("look 2", 2),
                ("look 3", 5),
                ("entry 0", 10),
                ("entry 15", 5),
            ],
            complete: &["look", "entry"],
            renewed: true,
        },
    ]
}

/// What document 01 says of looking in, and the edges of it.
fn by_name() -> Cases {
    let file = |signatures: &str, signed: &str| format!(r#"{{"signatures":{signatures},"signed":{signed}}}"#);
    let entries = |count: usize| {
        let entries = (0..count).map(|place| files::entry(place, place));
        String::from_utf8(Tree::Array(entries.collect()).written()).expect("a text")
    };
    let long = format!(r#"{{"signatures":[],"signed":{{"a":"{}"}}}}"#, "x".repeat(32_732));
    let looks = [
        (file("[]", "{}"), "look 0 26 2 0".to_string()),
        (file("[]", r#"{"signed":{}}"#), "look 0 26 13 0".to_string()),
        (
            file(&entries(16), "{}"),
            format!("look 0 {} 2 16", 24 + entries(16).len()),
        ),
        (file(&entries(17), "{}"), "look 3 0 0 0".to_string()),
        (file(r#"[],"signatures!":0"#, "{}"), "look 0 42 2 0".to_string()),
        (file("[]", r#"{},"signed!":{"a":0}"#), "look 0 26 2 0".to_string()),
        (
            r#"{"a":{"sig":[],"signed":{}},"signatures":[],"signed":{"sig":{}}}"#.to_string(),
            "look 0 53 10 0".to_string(),
        ),
        (
            r#"{"\"":"\\","signatures":[],"signed":{}}"#.to_string(),
            "look 0 36 2 0".to_string(),
        ),
        (
            r#"{"signed":{},"signatures":[]}"#.to_string(),
            "look 2 0 0 0".to_string(),
        ),
        (file("[]", "{ }"), "look 2 0 0 0".to_string()),
        (String::new(), "look 2 0 0 0".to_string()),
        ("{}".to_string(), "look 3 0 0 0".to_string()),
        ("[]".to_string(), "look 3 0 0 0".to_string()),
        (file("[]", "[]"), "look 3 0 0 0".to_string()),
        (file("{}", "{}"), "look 3 0 0 0".to_string()),
        (file("[0]", "{}"), "look 3 0 0 0".to_string()),
        (r#"{"signatures":[]}"#.to_string(), "look 3 0 0 0".to_string()),
        (r#"{"signed":{}}"#.to_string(), "look 3 0 0 0".to_string()),
        (long.clone(), "look 0 26 32740 0".to_string()),
        (format!("{long} "), "look 2 0 0 0".to_string()),
        (format!("{long}  "), "look 1 0 0 0".to_string()),
    ];
    let looks = looks.map(|(file, answer)| Case::stated(Call::Look(file.into_bytes()), answer));
    all_of(
        looks
            .into_iter()
            .chain(entries_by_name(&file(&entries(3), "{}")))
            .collect(),
    )
}

/// "an unknown entry place is 15"; "refused, they give that many zeros".
fn entries_by_name(file: &str) -> Vec<Case> {
    let known = (0..3).map(|place| {
        let keyid = files::keyid(place);
        (place as u64, format!("entry 0 {keyid}"))
    });
    let refused = format!("entry 15 {}", "0".repeat(64) + " " + &"0".repeat(128));
    let unknown =
        [3, 4, 15, 16, 255, 256, u64::from(u32::MAX), 1 << 32, u64::MAX].map(|place| (place, refused.clone()));
    known
        .chain(unknown)
        .map(|(place, answer)| {
            let file = file.as_bytes().to_vec();
            Case::stated(Call::Entry { file, place }, answer)
        })
        .collect()
}

/// Envelopes with all kinds of members beside and inside the signed part; of three one has an edit of its form and one
/// an edit of its text.
fn generated(seed: u64) -> Cases {
    let mut random = Random::new(seed, "look and entry, generated");
    Box::new((0..GENERATED).flat_map(move |number| {
        let random = &mut random;
        let count = entry_count(random);
        let envelope = envelope(random, count);
        let file = match number % 6 {
            0 | 1 => mutants::any(&envelope, random).written(),
            2 => damage::edited(envelope.written(), random),
            3 if random.one_in(40) => too_long(&envelope, random),
            _ => envelope.written(),
        };
        questions(file, count as u64, random)
    }))
}

/// Often a few entries, now and then as many as there may be, or one more.
fn entry_count(random: &mut Random) -> usize {
    match random.below(12) {
        0 => 15,
        1 => 16,
        2 => 17,
        _ => random.below(5),
    }
}

fn envelope(random: &mut Random, count: usize) -> Tree {
    let entries = (0..count).map(|place| entry(random, place)).collect();
    let mut envelope = object([("signatures", Tree::Array(entries)), ("signed", any_object(random))]);
    add_members(&mut envelope, random);
    envelope
}

fn entry(random: &mut Random, place: usize) -> Tree {
    let mut entry = files::entry(random.below(4), place);
    if random.one_in(4) {
        add_members(&mut entry, random);
    }
    entry
}

fn any_object(random: &mut Random) -> Tree {
    let mut object = object::<&str>([]);
    add_members(&mut object, random);
    object
}

/// Puts members with any names and values into an object. A name that is taken already is left out.
fn add_members(object: &mut Tree, random: &mut Random) {
    let most = random.below(4);
    for name in names::rising(random, most) {
        if object.members().iter().all(|member| member.0 != name) {
            let value = String::from_utf8(texts::shallow(random)).expect("a sound text is UTF-8");
            object.insert(name, Tree::Raw(value));
        }
    }
}

/// At the limit of a file's length, or just beyond it.
fn too_long(envelope: &Tree, random: &mut Random) -> Vec<u8> {
    let mut envelope = envelope.clone();
    envelope.members().retain(|member| member.0 != "~");
    let length = random.between(files::LONGEST - 1, files::LONGEST + 2);
    files::padded(&envelope, length, false)
}

/// A look into the file, and two entries asked for.
fn questions(file: Vec<u8>, count: u64, random: &mut Random) -> [Case; 3] {
    let mut entry = || {
        let place = match random.below(8) {
            0 => count,
            1 => random.pick(&[15, 16, 17, 1 << 32, u64::MAX]),
            _ => random.below(count as usize + 1) as u64,
        };
        let file = file.clone();
        Case::open(Call::Entry { file, place })
    };
    let entries = [entry(), entry()];
    let [one, other] = entries;
    [Case::open(Call::Look(file)), one, other]
}
