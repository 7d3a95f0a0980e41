//! A controller that takes its gate's firmware from a shelf that anybody can write to: the whole of an update in Rust, with the crate
//! `gronwythal` and OpenSSL's libcrypto. Each visit is one cycle of TUF's client workflow: roots, timestamp, snapshot, targets, image.
//!
//!     controller SHELF      SHELF is the folder examples/shelf
//!
//! It prints what was decided. A signature row has a digit for each signature of the file, 1 for a good one.

mod crypto;

use gronwythal::{MAX_ENTRIES, Refusal, State, entry, look, sha256, signed_part};
use std::env;
use std::fs;
use std::path::{Path, PathBuf};
use std::process::ExitCode;

const IMAGE: &str = "gate-firmware.img";

// ---- Files

/// A file that is on the shelf.
fn fetch(shelf: &Path, name: &str) -> Option<Vec<u8>> {
    fs::read(shelf.join(name)).ok()
}

/// A file that is not there is an empty one: the step refuses it.
fn fetch_or_empty(shelf: &Path, name: &str) -> Vec<u8> {
    fetch(shelf, name).unwrap_or_default()
}

// ---- Verdicts

/// The verdict of one entry, under the keys of the root that the state holds.
fn verdict(keys: &State, file: &[u8], part: &[u8], place: usize) -> Result<bool, Refusal> {
    let entry = entry(file, place)?;
    let public = keys.key(&entry.keyid_hex())?;
    Ok(crypto::verifies(&public, part, &entry.sig))
}

/// A row for a file. One that cannot be looked into has no entries; the step will say what is wrong with it.
fn verdicts(keys: &State, file: &[u8]) -> Vec<u8> {
    let entries = look(file).map_or(0, |look| look.entries);
    let part = signed_part(file).unwrap_or_default();
    (0..entries)
        .map(|place| u8::from(verdict(keys, file, part, place).unwrap_or(false)))
        .collect()
}

/// The keys that a root file itself lists, to check its signatures under: a state that holds the file as if every signature were good.
/// Nothing may be believed by this state; it is asked for keys and dropped. If the file is refused even so, it holds none, every verdict is
/// 0, and the true step refuses the file too: true verdicts would be no better than all good ones.
fn own_keys(file: &[u8]) -> State {
    let entries = look(file).map_or(0, |look| look.entries);
    State::install(file, &[1; MAX_ENTRIES][..entries], 0).unwrap_or_default()
}

// ---- Decisions in words

fn words(answer: Result<(), Refusal>) -> String {
    match answer {
        Ok(()) => "accepted".into(),
        Err(refusal) => format!("{}, {refusal}", refusal.number()),
    }
}

fn digits(row: &[u8]) -> String {
    row.iter().map(u8::to_string).collect()
}

fn held(state: &State) -> String {
    let versions = state.versions();
    let show = |version: Option<u64>| version.map_or("-".into(), |number| number.to_string());
    format!(
        "  held: root {}, timestamp {}, snapshot {}, targets {}",
        show(versions.root),
        show(versions.timestamp),
        show(versions.snapshot),
        show(versions.targets)
    )
}

// ---- The controller: what it keeps, and its steps

/// A step of the state that takes a file and its row.
type Step = fn(&mut State, &[u8], &[u8]) -> Result<(), Refusal>;

struct Controller {
    shelf: PathBuf,
    state: State,
    /// The targets file that was accepted last.
    targets: Vec<u8>,
}

impl Controller {
    fn from_factory(shelf: PathBuf, name: &str, clock: i64) -> Result<Controller, Refusal> {
        let file = fetch_or_empty(&shelf, name);
        let row = verdicts(&own_keys(&file), &file);
        let installed = State::install(&file, &row, clock);
        let answer = installed.as_ref().map(|_| ()).map_err(|refusal| *refusal);
        println!("  {name}: signatures {}: {}", digits(&row), words(answer));
        installed.map(|state| Controller {
            shelf,
            state,
            targets: Vec::new(),
        })
    }

    fn new_cycle(&mut self, clock: i64) -> Result<(), Refusal> {
        let answer = self.state.new_cycle(clock);
        println!("  new cycle: {}", words(answer));
        answer
    }

    /// The next root, if the shelf has one and it is accepted.
    fn next_root(&mut self) -> bool {
        let name = format!("root-{}.json", self.state.versions().root.unwrap_or(0) + 1);
        let Some(file) = fetch(&self.shelf, &name) else {
            println!("  {name}: not on the shelf");
            return false;
        };
        let by_held = verdicts(&self.state, &file);
        let by_own = verdicts(&own_keys(&file), &file);
        let answer = self.state.root(&file, &by_held, &by_own);
        println!(
            "  {name}: signatures {}, under its own keys {}: {}",
            digits(&by_held),
            digits(&by_own),
            words(answer)
        );
        answer.is_ok()
    }

    /// A file that the held root's keys sign, and the step that takes it.
    fn offer(&mut self, name: &str, step: Step) -> Result<Vec<u8>, Refusal> {
        let file = fetch_or_empty(&self.shelf, name);
        let row = verdicts(&self.state, &file);
        let answer = step(&mut self.state, &file, &row);
        println!("  {name}: signatures {}: {}", digits(&row), words(answer));
        answer.map(|()| file)
    }

    /// The image's length and digest by the targets file, then the fetched bytes against them.
    fn image(&self, name: &str) -> Result<(), Refusal> {
        let listed = self
            .state
            .find(&self.targets, IMAGE.as_bytes())
            .inspect_err(|refusal| println!("  {IMAGE}: {}", words(Err(*refusal))))?;
        println!("  {IMAGE}: listed with {} bytes", listed.length);
        let fetched = fetch_or_empty(&self.shelf, name);
        let answer = listed.check(fetched.len() as u64, &sha256(&fetched));
        println!("  {name}, fetched: {}", words(answer));
        answer
    }

    /// Lets the image in, or says why not. A refusal ends the visit, also of the new cycle, if the clock went back; "no news" does not.
    fn update(&mut self, visit: &Visit) -> Result<(), Refusal> {
        self.new_cycle(visit.clock)?;
        while self.next_root() {}
        match self.offer(visit.timestamp, State::timestamp) {
            Ok(_) => {
                self.offer(visit.snapshot, State::snapshot)?;
                self.targets = self.offer(visit.targets, State::targets)?;
            }
            Err(Refusal::NoNews) => {}
            Err(refusal) => return Err(refusal),
        }
        self.image(visit.image)
    }
}

// ---- Visits to the shelf: the clock, and which of its files the controller is given for each name that day

struct Visit {
    title: &'static str,
    clock: i64,
    timestamp: &'static str,
    snapshot: &'static str,
    targets: &'static str,
    image: &'static str,
}

const VISITS: [Visit; 8] = [
    Visit {
        title: "An update, 2026-03-02T06:00:00Z",
        clock: 1772431200,
        timestamp: "timestamp-41.json",
        snapshot: "snapshot-7.json",
        targets: "targets-3.json",
        image: IMAGE,
    },
    Visit {
        title: "No news, and another image under the name, 2026-03-03T06:00:00Z",
        clock: 1772517600,
        timestamp: "timestamp-41.json",
        snapshot: "snapshot-7.json",
        targets: "targets-3.json",
        image: "gate-firmware-old.img",
    },
    Visit {
        title: "An old timestamp, 2026-03-03T07:00:00Z",
        clock: 1772521200,
        timestamp: "timestamp-40.json",
        snapshot: "snapshot-6.json",
        targets: "targets-2.json",
        image: "gate-firmware-old.img",
    },
    Visit {
        title: "A new timestamp that lists an old snapshot, 2026-03-03T08:00:00Z",
        clock: 1772524800,
        timestamp: "timestamp-42-goes-back.json",
        snapshot: "snapshot-6.json",
        targets: "targets-2.json",
        image: "gate-firmware-old.img",
    },
    Visit {
        title: "A stolen key, 2026-03-03T09:00:00Z",
        clock: 1772528400,
        timestamp: "timestamp-44-stolen-key.json",
        snapshot: "snapshot-7.json",
        targets: "targets-3.json",
        image: IMAGE,
    },
    Visit {
        title: "A forged signature, 2026-03-03T10:00:00Z",
        clock: 1772532000,
        timestamp: "timestamp-45-forged.json",
        snapshot: "snapshot-7.json",
        targets: "targets-3.json",
        image: IMAGE,
    },
    Visit {
        title: "Nothing new for a week, 2026-03-09T06:00:00Z",
        clock: 1773036000,
        timestamp: "timestamp-41.json",
        snapshot: "snapshot-7.json",
        targets: "targets-3.json",
        image: IMAGE,
    },
    Visit {
        title: "A flat battery, 2000-01-01T00:00:00Z",
        clock: 946684800,
        timestamp: "timestamp-41.json",
        snapshot: "snapshot-7.json",
        targets: "targets-3.json",
        image: IMAGE,
    },
];

fn main() -> ExitCode {
    let Some(shelf) = env::args_os().nth(1) else {
        eprintln!("usage: controller SHELF");
        return ExitCode::from(2);
    };
    println!("The factory, 2026-03-01T08:00:00Z");
    let Ok(mut controller) = Controller::from_factory(shelf.into(), "root-1.json", 1772352000) else {
        return ExitCode::FAILURE;
    };
    println!("{}", held(&controller.state));
    for visit in &VISITS {
        println!("\n{}", visit.title);
        match controller.update(visit) {
            Ok(()) => println!("  It goes into the gate."),
            Err(_) => println!("  The gate keeps what it has."),
        }
        println!("{}", held(&controller.state));
    }
    ExitCode::SUCCESS
}
