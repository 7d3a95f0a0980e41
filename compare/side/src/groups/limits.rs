//! The limits of the forms: lengths of files, counts of entries, keys, keyids and names, bytes of names, ranges of
//! numbers. Every answer is known from document 01.

use std::collections::BTreeMap;

use super::Recorder;
use super::finds::{found, not_listed, refused};
use super::forms::{self, Kind, Stage, valid};
use crate::calls::Call;
use crate::compare::{Cases, Group};
use crate::shelf::files::{self, HIGHEST_VERSION, Header, LONGEST, Listed, Role, Root, Snapshot, Targets};
use crate::shelf::keyids::mended;
use crate::shelf::sha256::digest;
use crate::shelf::tree::{Tree, number, object};

const LATER: i64 = 2_000_000_000;

/// A valid file is accepted; a file that breaks a limit has a broken form, or is too long.
const ACCEPTED: u8 = 0;
const TOO_LONG: u8 = 1;
const NOT_CANONICAL: u8 = 2;
const BROKEN: u8 = 3;

/// The groups.
pub fn groups() -> Vec<Group> {
    vec![Group {
        name: "forms, limits",
        calls: &[
            "look",
            "entry",
            "install",
            "cycle",
            "root",
            "timestamp",
            "snapshot",
            "targets",
            "find",
            "key",
            "state",
        ],
        cases: |_| limits(),
        least: 1_000,
        shares: &[
            ("install 3", 1),
            ("timestamp 3", 1),
            ("snapshot 3", 1),
            ("targets 3", 1),
            ("find 0", 1),
        ],
        complete: &[],
        renewed: false,
    }]
}

fn limits() -> Cases {
    let parts: [fn(&mut Recorder); 11] = [
        entries,
        keys,
        keyids,
        counts_of_names,
        bytes_of_names,
        own_versions,
        listed_versions,
        spec_versions,
        listed_lengths,
        depths,
        lengths,
    ];
    Box::new(parts.into_iter().flat_map(|part| {
        let mut script = Recorder::default();
        part(&mut script);
        script.take()
    }))
}

const KINDS: [Kind; 4] = [Kind::Root, Kind::Timestamp, Kind::Snapshot, Kind::Targets];

/// A valid file that its stage accepts.
fn acceptable(kind: Kind) -> Tree {
    valid(kind, if kind == Kind::Root { 2 } else { 1 })
}

/// Tries a file on its stage; a root as a first one too.
fn tried(script: &mut Recorder, kind: Kind, file: &Tree, answer: u8) {
    Stage::new(kind).play(script, file, Some(answer));
    if kind == Kind::Root {
        script.stated(forms::install(file), format!("install {answer}"));
    }
}

/// Has a targets file held, if it is accepted, while nothing has expired. On its stage the clock went on, and by A8 it does not
/// go back; so all is held anew.
fn hold_anew(script: &mut Recorder, targets: Call, answer: u8) {
    Stage::new(Kind::Targets).set(script);
    script.stated(targets, format!("targets {answer}"));
}

/// What find says of `image` in the acceptable targets file, where it is the second of two.
fn image_found(answer: u8, length: u64) -> String {
    match answer {
        ACCEPTED => found(length, &digest(b"image"), 2),
        _ => refused(answer),
    }
}

/// "32,768 bytes may pass, 32,769 is 1."
fn lengths(script: &mut Recorder) {
    for kind in KINDS {
        let file = acceptable(kind);
        for in_signed in [false, true] {
            for (length, answer) in [
                (LONGEST - 1, ACCEPTED),
                (LONGEST, ACCEPTED),
                (LONGEST + 1, TOO_LONG),
                (140_000, TOO_LONG),
            ] {
                let bytes = files::padded(&file, length, in_signed);
                script.stated(Call::Look(bytes.clone()), format!("look {answer}"));
                let call = Call::Entry {
                    file: bytes.clone(),
                    place: 1,
                };
                script.stated(call, format!("entry {answer}"));
                Stage::new(kind).play_bytes(script, bytes.clone(), 2, Some(answer));
                if kind == Kind::Targets {
                    let row = vec![1; 2];
                    let file = bytes.clone();
                    hold_anew(script, Call::Targets { file, row }, answer);
                    script.stated(forms::find(&bytes, "image"), image_found(answer, u32::MAX.into()));
                }
            }
        }
    }
}

/// "at most 16 entries"
fn entries(script: &mut Recorder) {
    for kind in KINDS {
        for (count, answer) in [
            (1, ACCEPTED),
            (15, ACCEPTED),
            (16, ACCEPTED),
            (17, BROKEN),
            (40, BROKEN),
        ] {
            let mut file = acceptable(kind);
            let entries = file.member(&["signatures"]).items();
            entries.truncate(1);
            entries.extend((1..count).map(|place| files::entry(20 + place, place)));
            script.stated(Call::Look(file.written()), format!("look {answer}"));
            for place in [0, 14, 15, 16] {
                let number = match answer {
                    ACCEPTED if place >= count as u64 => 15,
                    _ => answer,
                };
                let file = file.written();
                script.stated(Call::Entry { file, place }, format!("entry {number}"));
            }
            tried(script, kind, &file, answer);
        }
    }
}

fn root(change: impl FnOnce(&mut Root)) -> Tree {
    let mut root = Root::new(2, LATER);
    change(&mut root);
    files::file(root.signed(), &[1, 2])
}

/// ""keys", 1 to 16", no two "with the same public value"
fn keys(script: &mut Recorder) {
    for (count, answer) in [
        (8, ACCEPTED),
        (15, ACCEPTED),
        (16, ACCEPTED),
        (17, BROKEN),
        (18, BROKEN),
    ] {
        let file = root(|root| root.keys = (1..=count).map(|key| (key, key)).collect());
        tried(script, Kind::Root, &file, answer);
        for key in [1, 8, 15, 16, 17] {
            script.open(Call::Key(files::keyid(key).into()));
        }
    }
    let one = root(|root| {
        root.keys = BTreeMap::from([(1, 1)]);
        for role in [
            &mut root.root,
            &mut root.timestamp,
            &mut root.snapshot,
            &mut root.targets,
        ] {
            *role = Role::new([1], 1);
        }
    });
    tried(script, Kind::Root, &one, ACCEPTED);
    // One public value under two keyids: the keys differ in an unknown member, and so both keyids may be true.
    for (one, other) in [(1, 2), (2, 1), (1, 8), (8, 1), (7, 8), (16, 15), (16, 1)] {
        let mut file = root(|root| root.keys = (1..=16).map(|key| (key, key)).collect());
        let key = file.member(&["signed", "keys", files::keyid(one)]);
        *key = files::key(other).tree.clone();
        tried(script, Kind::Root, &file, BROKEN);
        file.member(&["signed", "keys", files::keyid(one)])
            .insert("~", number(0));
        tried(script, Kind::Root, &mended(&file), BROKEN);
    }
}

/// "each with 1 to 16 different keyids from the key table and a threshold from 1 to the number of those keyids"
fn keyids(script: &mut Recorder) {
    let roles: [fn(&mut Root) -> &mut Role; 4] = [
        |root| &mut root.root,
        |root| &mut root.timestamp,
        |root| &mut root.snapshot,
        |root| &mut root.targets,
    ];
    for role in roles {
        let mut tried = |keys: Vec<usize>, threshold: u64, table: usize, answer: u8| {
            let file = root(|root| {
                root.keys = (1..=table).map(|key| (key, key)).collect();
                *role(root) = Role::new(keys, threshold);
            });
            tried(script, Kind::Root, &file, answer);
        };
        let all = |count: usize| (1..=count).collect::<Vec<_>>();
        tried(all(16), 1, 16, ACCEPTED);
        tried(all(16).into_iter().rev().collect(), 2, 16, ACCEPTED);
        tried(all(17), 1, 17, BROKEN);
        tried([all(16), vec![1]].concat(), 1, 16, BROKEN);
        tried([all(16), vec![17]].concat(), 1, 16, BROKEN);
        tried(vec![], 0, 16, BROKEN);
        tried(vec![], 1, 16, BROKEN);
        tried(vec![1, 1], 1, 16, BROKEN);
        tried(vec![1, 2, 1], 1, 16, BROKEN);
        tried(vec![1, 17], 1, 16, BROKEN);
        for (threshold, answer) in [
            (0, BROKEN),
            (1, ACCEPTED),
            (2, ACCEPTED),
            (3, BROKEN),
            (u64::MAX, BROKEN),
        ] {
            tried(vec![1, 2], threshold, 16, answer);
        }
    }
}

fn snapshot_of(names: impl IntoIterator<Item = String>) -> Tree {
    let names = names.into_iter().map(|name| (name, Listed::version(1)));
    let snapshot = Snapshot {
        header: Header::new(1, LATER),
        meta: names.collect(),
    };
    files::file(snapshot.signed(), &[5])
}

fn targets_of(names: impl IntoIterator<Item = String>) -> Tree {
    let names = names
        .into_iter()
        .zip(1..)
        .map(|(name, length)| (name, (length, digest(b"image"))));
    let targets = Targets {
        header: Header::new(1, LATER),
        targets: names.collect(),
    };
    files::file(targets.signed(), &[7])
}

/// "1 to 32 names", "`targets.json` among them"; "0 to 256 names"
fn counts_of_names(script: &mut Recorder) {
    let targets_json = || "targets.json".to_string();
    let numbered = |count: usize| (0..count).map(|number| format!("{number:03}"));
    for (count, answer) in [
        (0, ACCEPTED),
        (1, ACCEPTED),
        (30, ACCEPTED),
        (31, ACCEPTED),
        (32, BROKEN),
        (33, BROKEN),
    ] {
        let file = snapshot_of(numbered(count).chain([targets_json()]));
        tried(script, Kind::Snapshot, &file, answer);
        tried(script, Kind::Snapshot, &snapshot_of(numbered(count)), BROKEN);
    }
    for (count, answer) in [
        (0, ACCEPTED),
        (1, ACCEPTED),
        (255, ACCEPTED),
        (256, ACCEPTED),
        (257, BROKEN),
        (258, BROKEN),
    ] {
        let file = targets_of(numbered(count));
        tried(script, Kind::Targets, &file, answer);
        hold_anew(script, forms::offered(Kind::Targets, &file), answer);
        for number in [0, 1, 127, 254, 255, 256, 257] {
            let path = format!("{number:03}");
            let answer = match answer {
                ACCEPTED if number < count => found(number as u64 + 1, &digest(b"image"), number + 1),
                ACCEPTED => not_listed(count),
                _ => refused(answer),
            };
            script.stated(forms::find(&file.written(), &path), answer);
        }
    }
    let further = |name: &str| {
        let mut file = acceptable(Kind::Timestamp);
        let meta = file.member(&["signed", "meta"]);
        meta.insert(name, object([("version", number(1))]));
        file
    };
    for name in ["a", "root.json", "snapshot.jsoo", "targets.json", "~"] {
        tried(script, Kind::Timestamp, &further(name), BROKEN);
    }
}

/// Names of so many bytes: plain, of two characters that are escaped, of longer characters, and mixed.
fn names_of(bytes: usize) -> Vec<String> {
    let filled = |filling: &str| {
        let count = bytes / filling.len();
        filling.repeat(count) + &"x".repeat(bytes - count * filling.len())
    };
    let mut names: Vec<String> = ["x", "\"", "\\", "\\\"", "\u{e4}", "\u{20ac}", "\u{1f600}", "a\\b\""]
        .into_iter()
        .map(filled)
        .collect();
    names.sort();
    names.dedup();
    names
}

/// "names of 1 to 32 bytes", "names of 1 to 128 bytes": counted after the escapes are undone.
fn bytes_of_names(script: &mut Recorder) {
    for bytes in [0, 1, 2, 16, 17, 31, 32, 33, 64, 65, 128] {
        for name in names_of(bytes) {
            assert_eq!(name.len(), bytes);
            let answer = if (1..=32).contains(&bytes) { ACCEPTED } else { BROKEN };
            let file = snapshot_of([name, "targets.json".to_string()]);
            tried(script, Kind::Snapshot, &file, answer);
        }
    }
    for bytes in [0, 1, 32, 33, 64, 65, 127, 128, 129, 130, 256, 257] {
        for name in names_of(bytes) {
            let answer = if (1..=128).contains(&bytes) { ACCEPTED } else { BROKEN };
            let file = targets_of([name.clone()]);
            tried(script, Kind::Targets, &file, answer);
            hold_anew(script, forms::offered(Kind::Targets, &file), answer);
            let said = |accepted: String| if answer == ACCEPTED { accepted } else { refused(answer) };
            let call = forms::find(&file.written(), &name);
            script.stated(call, said(found(1, &digest(b"image"), 1)));
            let escaped = super::names::escaped(&name);
            if escaped != name {
                let call = forms::find(&file.written(), &escaped);
                script.stated(call, said(not_listed(1)));
            }
        }
    }
}

/// Versions and what is none, as texts: about both ends of the range, and about the end that it had before A7.
fn versions() -> [(String, u8); 12] {
    let sound = |version: u64| (version.to_string(), ACCEPTED);
    let broken = |text: &str| (text.to_string(), BROKEN);
    [
        sound(1),
        sound(2_147_483_647),
        sound(2_147_483_648),
        sound(4_294_967_297),
        sound(HIGHEST_VERSION - 1),
        sound(HIGHEST_VERSION),
        broken("0"),
        broken("-1"),
        broken(&(HIGHEST_VERSION + 1).to_string()),
        broken(&(HIGHEST_VERSION + 2).to_string()),
        broken("18446744073709551617"),
        broken("\"1\""),
    ]
}

/// ""version" 1 to 2,147,483,647"; A7: "from 1 to 9,007,199,254,740,991"
fn own_versions(script: &mut Recorder) {
    for kind in KINDS {
        for (version, answer) in versions() {
            let mut file = acceptable(kind);
            *file.member(&["signed", "version"]) = Tree::Raw(version.clone());
            if kind == Kind::Root {
                script.stated(forms::install(&file), format!("install {answer}"));
            }
            // A timestamp may have any version when none is held. Root 2 is the next one, and version 1 is listed.
            let is_the_one = kind == Kind::Timestamp || (version == "1" && kind != Kind::Root);
            let answer = if answer == ACCEPTED && !is_the_one { 11 } else { answer };
            Stage::new(kind).play(script, &file, Some(answer));
        }
    }
}

/// "Each gives "version", in the same range"
fn listed_versions(script: &mut Recorder) {
    for (version, answer) in versions() {
        for (kind, name) in [
            (Kind::Timestamp, "snapshot.json"),
            (Kind::Snapshot, "targets.json"),
            (Kind::Snapshot, "a\"\\"),
        ] {
            let mut file = acceptable(kind);
            *file.member(&["signed", "meta", name, "version"]) = Tree::Raw(version.clone());
            tried(script, kind, &file, answer);
        }
    }
}

/// "exactly `1` or beginning with `1.`"
fn spec_versions(script: &mut Recorder) {
    for kind in KINDS {
        for (spec_version, answer) in [
            ("\"1\"", ACCEPTED),
            ("\"1.\"", ACCEPTED),
            ("\"1.\\\"\\\\\"", ACCEPTED),
            ("\"1.0.26\"", ACCEPTED),
            ("\"\"", 4),
            ("\"10\"", 4),
            ("\"1\\\\\"", 4),
            ("\"2\"", 4),
            ("\"1,0\"", 4),
            ("\" 1\"", 4),
            ("1", BROKEN),
            ("null", BROKEN),
        ] {
            let mut file = acceptable(kind);
            *file.member(&["signed", "spec_version"]) = Tree::Raw(spec_version.to_string());
            tried(script, kind, &file, answer);
            // A broken form is said before spec_version is judged, wherever it stands.
            for broken in ["_type", "expires", "version"] {
                let mut file = file.clone();
                *file.member(&["signed", broken]) = number(0);
                tried(script, kind, &file, BROKEN);
            }
        }
    }
}

/// ""length" (0 to 4,294,967,295)"; A7, which widens versions: "Image lengths stay."
fn listed_lengths(script: &mut Recorder) {
    for (length, answer) in [
        (0, ACCEPTED),
        (4_294_967_295, ACCEPTED),
        (4_294_967_296, BROKEN),
        (HIGHEST_VERSION, BROKEN),
        (u64::MAX, BROKEN),
    ] {
        let mut listed = Listed::version(1);
        listed.length = Some(length);
        tried(script, Kind::Timestamp, &forms::timestamp(1, listed.clone()), answer);
        tried(script, Kind::Snapshot, &forms::snapshot(1, listed), answer);
        let mut file = acceptable(Kind::Targets);
        *file.member(&["signed", "targets", "image", "length"]) = number(length);
        tried(script, Kind::Targets, &file, answer);
        hold_anew(script, forms::offered(Kind::Targets, &file), answer);
        script.stated(forms::find(&file.written(), "image"), image_found(answer, length));
    }
}

/// "to depth 8; the outermost counts 1. Depth 9 is refused.": a member of the signed part begins at depth 3.
fn depths(script: &mut Recorder) {
    for kind in KINDS {
        for (levels, answer) in [(5, ACCEPTED), (6, ACCEPTED), (7, NOT_CANONICAL), (100, NOT_CANONICAL)] {
            let nested = format!("{}0{}", "[".repeat(levels), "]".repeat(levels));
            let mut file = acceptable(kind);
            file.member(&["signed"]).insert("~", Tree::Raw(nested));
            tried(script, kind, &file, answer);
        }
    }
}
