//! The forms of the four files: of each a valid one, and every file that one edit makes of it. Each is offered where the
//! valid one would be accepted, so that what was read shows in the answer and in what is held afterwards.

use std::collections::BTreeMap;

use super::{Recorder, mutants};
use crate::calls::Call;
use crate::compare::{Cases, Group};
use crate::shelf::files::{self, Header, Listed, Role, Root, Snapshot, Targets, Timestamp, keyid};
use crate::shelf::keyids::mended;
use crate::shelf::sha256::digest;
use crate::shelf::tree::Tree;

/// The start time; every valid file expires later.
const NOW: i64 = 1_000_000_000;
const LATER: i64 = 2_000_000_000;

/// The groups, one for each file.
pub fn groups() -> Vec<Group> {
    vec![
        Group {
            name: "forms, root",
            calls: &["look", "install", "root", "timestamp", "key", "state", "cycle"],
            cases: |_| forms_of(Kind::Root),
            least: 10_000,
            shares: &[("install 0", 10), ("install 3", 10), ("root 3", 10)],
            complete: &[],
            renewed: false,
        },
        Group {
            name: "forms, timestamp",
            calls: &["look", "install", "timestamp", "snapshot", "state", "cycle"],
            cases: |_| forms_of(Kind::Timestamp),
            least: 2_000,
            shares: &[("timestamp 0", 1), ("timestamp 3", 10)],
            complete: &[],
            renewed: false,
        },
        Group {
            name: "forms, snapshot",
            calls: &["look", "install", "timestamp", "snapshot", "targets", "state", "cycle"],
            cases: |_| forms_of(Kind::Snapshot),
            least: 3_000,
            shares: &[("snapshot 0", 1), ("snapshot 3", 10)],
            complete: &[],
            renewed: false,
        },
        Group {
            name: "forms, targets",
            calls: &[
                "look",
                "install",
                "timestamp",
                "snapshot",
                "targets",
                "find",
                "state",
                "cycle",
            ],
            cases: |_| forms_of(Kind::Targets),
            least: 4_000,
            shares: &[("targets 0", 1), ("targets 3", 10), ("find 0", 1), ("find 3", 10)],
            complete: &[],
            renewed: false,
        },
    ]
}

/// The four files.
#[derive(Clone, Copy, Debug, PartialEq, Eq)]
pub enum Kind {
    /// `root.json`
    Root,
    /// `timestamp.json`
    Timestamp,
    /// `snapshot.json`
    Snapshot,
    /// `targets.json`
    Targets,
}

/// A stage on which a file of one kind is tried: whatever a controller has to hold before.
pub struct Stage {
    kind: Kind,
    /// Played before, from the first to the last.
    prelude: Vec<Call>,
    staged: bool,
}

impl Stage {
    /// The stage for a kind of file. Only its version is listed, so that any file with that version may be tried.
    pub fn new(kind: Kind) -> Stage {
        let mut prelude = vec![install(&files::file(Root::new(1, LATER).signed(), &[1]))];
        if matches!(kind, Kind::Snapshot | Kind::Targets) {
            prelude.push(offered(Kind::Timestamp, &timestamp(1, Listed::version(1))));
        }
        if kind == Kind::Targets {
            prelude.push(offered(Kind::Snapshot, &snapshot(1, Listed::version(1))));
        }
        Stage {
            kind,
            prelude,
            staged: false,
        }
    }

    /// Adds the step with this file. If it is accepted, adds what shows how it was read; then, and before the first
    /// file, the stage is set anew.
    pub fn play(&mut self, script: &mut Recorder, file: &Tree, stated: Option<u8>) {
        self.play_bytes(script, file.written(), entry_count(file), stated);
    }

    /// The same for a file of which only the bytes are known, and how many verdicts are given.
    pub fn play_bytes(&mut self, script: &mut Recorder, file: Vec<u8>, entries: usize, stated: Option<u8>) {
        self.set(script);
        let before = script.state().clone();
        let call = offered_bytes(self.kind, file.clone(), entries);
        match stated {
            Some(number) => script.stated(call, format!("{} {number}", name(self.kind))),
            None => script.open(call),
        };
        if *script.state() != before {
            self.staged = false;
            show(self.kind, script, &file);
        }
    }

    /// Plays what a controller has to hold before, unless it is held still.
    pub fn set(&mut self, script: &mut Recorder) {
        if !std::mem::replace(&mut self.staged, true) {
            for call in &self.prelude {
                script.open(call.clone());
            }
        }
    }
}

/// What was read of an accepted file, as far as later calls show it. The edited files that expire at another time than
/// the valid ones expire at 1,709,251,199. The times rise, since the clock does not go back (A8).
fn show(kind: Kind, script: &mut Recorder, file: &[u8]) {
    script.open(Call::State);
    if kind == Kind::Root {
        for key in [1, 3, 8, 9] {
            script.open(Call::Key(keyid(key).into()));
        }
    }
    for time in [NOW, 1_709_251_198, 1_709_251_199, LATER - 1, LATER] {
        script.open(Call::Cycle(time));
        match kind {
            Kind::Root => script.open(offered(Kind::Timestamp, &valid(Kind::Timestamp, 1))),
            Kind::Timestamp => script.open(offered(Kind::Snapshot, &valid(Kind::Snapshot, 1))),
            Kind::Snapshot => script.open(offered(Kind::Targets, &valid(Kind::Targets, 1))),
            Kind::Targets => find_in(script, file),
        };
    }
}

/// Every edit of the valid file, offered on its stage; each is looked into as well. A root whose keys were edited is offered
/// again with their true keyids.
fn forms_of(kind: Kind) -> Cases {
    let valid = valid(kind, if kind == Kind::Root { 2 } else { 1 });
    let mut stage = Stage::new(kind);
    let mut script = Recorder::default();
    let files = std::iter::once(valid.clone()).chain(mutants::all(valid));
    let files = files.flat_map(|file| {
        let mended = Some(mended(&file)).filter(|mended| *mended != file);
        std::iter::once(file).chain(mended)
    });
    Box::new(files.flat_map(move |file| {
        script.open(Call::Look(file.written()));
        if kind == Kind::Root {
            script.open(install(&file));
            stage.staged = false;
        }
        stage.play(&mut script, &file, None);
        if kind == Kind::Targets {
            find_in_other(&mut script, &file);
        }
        script.take()
    }))
}

/// Looks for the images in a file, while the valid one is held if this was refused.
fn find_in_other(script: &mut Recorder, file: &Tree) {
    if script.state().targets.is_none() {
        script.open(offered(Kind::Targets, &valid(Kind::Targets, 1)));
    }
    find_in(script, &file.written());
}

/// Looks for both images.
fn find_in(script: &mut Recorder, file: &[u8]) -> String {
    script.open(find(file, "a\"b\\"));
    script.open(find(file, "image"))
}

/// The call that finds a path in a file.
pub fn find(file: &[u8], path: &str) -> Call {
    Call::Find {
        file: file.to_vec(),
        path: path.as_bytes().to_vec(),
    }
}

/// A valid file of each kind, with everything that may stand in it.
pub fn valid(kind: Kind, version: u64) -> Tree {
    match kind {
        Kind::Root => {
            let mut root = Root::new(version, LATER);
            root.keys.retain(|key, _| [1, 2, 3, 5, 7].contains(key));
            let with_more = files::KEYS_WITH_MORE.start;
            root.keys.insert(with_more, with_more);
            root.root = Role::new([2, 1], 1);
            root.timestamp = Role::new([3], 1);
            root.snapshot = Role::new([5], 1);
            root.targets = Role::new([7], 1);
            files::file(root.signed(), &[1, 2])
        }
        Kind::Timestamp => timestamp(version, Listed::whole(1, &valid(Kind::Snapshot, 1).written())),
        Kind::Snapshot => snapshot(version, Listed::whole(1, &valid(Kind::Targets, 1).written())),
        Kind::Targets => {
            let targets = BTreeMap::from([
                ("a\"b\\".to_string(), (0, digest(b""))),
                ("image".to_string(), (4_294_967_295, digest(b"image"))),
            ]);
            let header = Header::new(version, LATER);
            files::file(Targets { header, targets }.signed(), &[7, 8])
        }
    }
}

/// A timestamp that lists this for the snapshot.
pub fn timestamp(version: u64, snapshot: Listed) -> Tree {
    let header = Header::new(version, LATER);
    files::file(Timestamp { header, snapshot }.signed(), &[3, 4])
}

/// A snapshot that lists this for the targets file, and another name.
pub fn snapshot(version: u64, targets: Listed) -> Tree {
    let header = Header::new(version, LATER);
    let meta = BTreeMap::from([
        ("a\"\\".to_string(), Listed::version(files::HIGHEST_VERSION)),
        ("targets.json".to_string(), targets),
    ]);
    files::file(Snapshot { header, meta }.signed(), &[5, 6])
}

/// How many entries a file has, to give as many verdicts; of a file that has none in order, two.
fn entry_count(file: &Tree) -> usize {
    let Tree::Object(members) = file else { return 2 };
    match members.iter().find(|member| member.0 == "signatures") {
        Some((_, Tree::Array(entries))) => entries.len(),
        _ => 2,
    }
}

/// The step that takes a file of this kind.
pub fn name(kind: Kind) -> &'static str {
    match kind {
        Kind::Root => "root",
        Kind::Timestamp => "timestamp",
        Kind::Snapshot => "snapshot",
        Kind::Targets => "targets",
    }
}

/// The install of a root all of whose entries verify.
pub fn install(file: &Tree) -> Call {
    install_at(file, NOW)
}

/// The same at another start time.
pub fn install_at(file: &Tree, time: i64) -> Call {
    Call::Install {
        file: file.written(),
        row: vec![1; entry_count(file)],
        time,
    }
}

/// The step for a file all of whose entries verify.
pub fn offered(kind: Kind, file: &Tree) -> Call {
    offered_bytes(kind, file.written(), entry_count(file))
}

fn offered_bytes(kind: Kind, file: Vec<u8>, entries: usize) -> Call {
    let row = vec![1; entries];
    match kind {
        Kind::Root => Call::Root {
            file,
            held_row: row.clone(),
            own_row: row,
        },
        Kind::Timestamp => Call::Timestamp { file, row },
        Kind::Snapshot => Call::Snapshot { file, row },
        Kind::Targets => Call::Targets { file, row },
    }
}
