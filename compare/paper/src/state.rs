//! "Steps": the trusted state, and what each call answers and changes.

use std::collections::{BTreeMap, BTreeSet};

use crate::envelope::Entry;
use crate::forms::{self, Header, Listed, Role, Root, Signed, Snapshot, TARGET_NAME_BYTES, Target, Timestamp};
use crate::hex;
use crate::refusal::{Objections, Refusal};
use crate::sha256;

/// "SHA-256 digests (32 bytes)"
const DIGEST_BYTES: usize = 32;

/// "the trusted state"
#[derive(Clone, Debug, PartialEq, Eq)]
pub struct State {
    /// The held root.
    pub root: Option<Root>,
    /// The held timestamp.
    pub timestamp: Option<Timestamp>,
    /// The held snapshot.
    pub snapshot: Option<Snapshot>,
    /// What is held of the targets file.
    pub targets: Option<HeldTargets>,
    /// "the start time in force"
    pub time: i64,
}

/// The targets record: "The file's digest is kept."
#[derive(Clone, Debug, PartialEq, Eq)]
pub struct HeldTargets {
    /// Version and expiry.
    pub header: Header,
    /// The digest in hex.
    pub digest: String,
}

/// What find says.
#[derive(Clone, Debug, PartialEq, Eq)]
pub struct Found {
    /// The image of the path, or why none is given.
    pub image: Result<Target, Refusal>,
    /// "how many names it compared"; with a refusal of 1 to 8 none.
    pub compared: usize,
}

impl Default for State {
    fn default() -> State {
        State::blank()
    }
}

impl State {
    /// "the blank state, which holds no record and has the lowest signed 64-bit count as its start time"
    pub fn blank() -> State {
        State {
            root: None,
            timestamp: None,
            snapshot: None,
            targets: None,
            time: i64::MIN,
        }
    }

    /// Install (1 to 5, 10, 16): "a root judged by its own root role. No expiry check." Given no state, it begins a new
    /// history.
    pub fn install(file: &[u8], row: &[u8], time: i64) -> Result<State, Refusal> {
        let Signed { entries, says: root } = forms::root(file)?;
        let mut objections = Objections::default();
        objections.add_if(!is_row(row, &entries), Refusal::BrokenArgument);
        objections.add_if(!enough(&root.root, &entries, row), Refusal::TooFewOwnKeys);
        objections.first()?;
        Ok(State {
            root: Some(root),
            time,
            ..State::blank()
        })
    }

    /// New cycle (17). A8: one with an earlier start time than "the latest start time it has had" is refused; "an equal one
    /// passes". None is set but by an accepted install or cycle, so the one in force is the latest.
    pub fn cycle(&mut self, time: i64) -> Result<(), Refusal> {
        let mut objections = Objections::default();
        objections.add_if(time < self.time, Refusal::EarlierStart);
        objections.first()?;
        self.time = time;
        Ok(())
    }

    /// Root (1 to 6, 9, 10, 11, 16), with a row of verdicts under the held root's keys and one under its own.
    pub fn root(&mut self, file: &[u8], held_row: &[u8], own_row: &[u8]) -> Result<(), Refusal> {
        let Signed { entries, says: new } = forms::root(file)?;
        let mut objections = Objections::default();
        for row in [held_row, own_row] {
            objections.add_if(!is_row(row, &entries), Refusal::BrokenArgument);
        }
        objections.add_if(self.root.is_none(), Refusal::NotHeld);
        if let Some(held) = &self.root {
            objections.add_if(!enough(&held.root, &entries, held_row), Refusal::TooFewHeldKeys);
            let next = held.header.version + 1;
            objections.add_if(new.header.version != next, Refusal::WrongVersion);
        }
        objections.add_if(!enough(&new.root, &entries, own_row), Refusal::TooFewOwnKeys);
        objections.first()?;
        if let Some(held) = self.root.replace(new.clone()) {
            self.drop_rotated(&held, &new);
        }
        Ok(())
    }

    /// A5: "a role is rotated when its set of keyids or its threshold differs, for timestamp, snapshot and targets alike".
    /// "Timestamp or snapshot keys are rotated ..: then timestamp and snapshot records are dropped, and by house rule targets
    /// too. If only the targets set differs, the targets record alone is dropped".
    fn drop_rotated(&mut self, held: &Root, new: &Root) {
        let rotated = |role: fn(&Root) -> &Role| {
            let (old, new) = (role(held), role(new));
            old.keyids != new.keyids || old.threshold != new.threshold
        };
        if rotated(|root| &root.timestamp) || rotated(|root| &root.snapshot) {
            self.timestamp = None;
            self.snapshot = None;
            self.targets = None;
        }
        if rotated(|root| &root.targets) {
            self.targets = None;
        }
    }

    /// Timestamp (1 to 7, 9, 11 to 14): "leans on root".
    pub fn timestamp(&mut self, file: &[u8], row: &[u8]) -> Result<(), Refusal> {
        let Signed { entries, says: new } = forms::timestamp(file)?;
        let mut objections = Objections::default();
        objections.add_if(!is_row(row, &entries), Refusal::BrokenArgument);
        self.lean_on_root(&mut objections, |root| !enough(&root.timestamp, &entries, row));
        if let Some(held) = &self.timestamp {
            let (version, held_version) = (new.header.version, held.header.version);
            objections.add_if(version < held_version, Refusal::WrongVersion);
            objections.add_if(version == held_version, Refusal::NoNews);
            objections.add_if(new.snapshot.version < held.snapshot.version, Refusal::WentBack);
        }
        objections.add_if(self.is_past(&new.header), Refusal::OfferedExpired);
        objections.first()?;
        self.timestamp = Some(new);
        Ok(())
    }

    /// Snapshot (1 to 9, 11, 13, 14): "needs a timestamp, leans on root and timestamp".
    pub fn snapshot(&mut self, file: &[u8], row: &[u8]) -> Result<(), Refusal> {
        let Signed { entries, says: new } = forms::snapshot(file)?;
        let mut objections = Objections::default();
        objections.add_if(!is_row(row, &entries), Refusal::BrokenArgument);
        self.lean_on_root(&mut objections, |root| !enough(&root.snapshot, &entries, row));
        self.lean_on(&mut objections, self.timestamp.as_ref().map(|held| &held.header));
        if let Some(timestamp) = &self.timestamp {
            judge_listed(&mut objections, &timestamp.snapshot, file, &new.header);
        }
        if let Some(held) = &self.snapshot {
            objections.add_if(went_back(held, &new), Refusal::WentBack);
        }
        objections.add_if(self.is_past(&new.header), Refusal::OfferedExpired);
        objections.first()?;
        self.snapshot = Some(new);
        Ok(())
    }

    /// Targets (1 to 9, 11, 14): "needs a current snapshot", "leans on root, timestamp, snapshot".
    pub fn targets(&mut self, file: &[u8], row: &[u8]) -> Result<(), Refusal> {
        let Signed { entries, says: new } = forms::targets(file)?;
        let mut objections = Objections::default();
        objections.add_if(!is_row(row, &entries), Refusal::BrokenArgument);
        self.lean_on_root(&mut objections, |root| !enough(&root.targets, &entries, row));
        self.lean_on(&mut objections, self.timestamp.as_ref().map(|held| &held.header));
        self.lean_on(&mut objections, self.current_snapshot().map(|held| &held.header));
        if let Some(listed) = self.listed_targets() {
            judge_listed(&mut objections, listed, file, &new.header);
        }
        objections.add_if(self.is_past(&new.header), Refusal::OfferedExpired);
        objections.first()?;
        self.targets = Some(HeldTargets {
            header: new.header,
            digest: digest_of(file),
        });
        Ok(())
    }

    /// Find (1 to 4, 6 to 8, 15): given the targets file and a path. It has no verdicts, and so 5 never holds.
    pub fn find(&self, file: &[u8], path: &[u8]) -> Found {
        match self.images_in(file) {
            Ok(images) => Found {
                image: image_of(path, &images).ok_or(Refusal::NotListed),
                compared: compared_with(path, &images),
            },
            Err(refusal) => Found {
                image: Err(refusal),
                compared: 0,
            },
        }
    }

    /// The images by path, if the file is the targets file that is held and may be leaned on (1 to 4, 6 to 8).
    fn images_in(&self, file: &[u8]) -> Result<BTreeMap<String, Target>, Refusal> {
        let given = forms::targets(file)?.says;
        let mut objections = Objections::default();
        self.lean_on_root(&mut objections, |_| false);
        self.lean_on(&mut objections, self.timestamp.as_ref().map(|held| &held.header));
        self.lean_on(&mut objections, self.current_snapshot().map(|held| &held.header));
        self.lean_on(&mut objections, self.current_targets().map(|held| &held.header));
        if let Some(held) = &self.targets {
            objections.add_if(digest_of(file) != held.digest, Refusal::Differs);
        }
        objections.first()?;
        Ok(given.targets)
    }

    /// "a held root's public key by keyid" (6, 15), in hex. The keyid asked for is any bytes.
    pub fn key(&self, keyid: &[u8]) -> Result<&str, Refusal> {
        let root = self.root.as_ref().ok_or(Refusal::NotHeld)?;
        let named = |(held, _): &(&String, &String)| held.as_bytes() == keyid;
        match root.keys.iter().find(named) {
            Some((_, public)) => Ok(public),
            None => Err(Refusal::NotListed),
        }
    }

    /// "Expired means: expires is at or below the start time in force."
    fn is_past(&self, header: &Header) -> bool {
        header.expires <= self.time
    }

    /// A record that the step needs and leans on: 6 if it is not there, 7 if it has expired.
    fn lean_on(&self, objections: &mut Objections, record: Option<&Header>) {
        match record {
            None => objections.add_if(true, Refusal::NotHeld),
            Some(header) => objections.add_if(self.is_past(header), Refusal::HeldExpired),
        }
    }

    /// The root is leaned on by every step, and its keys judge the entries (9).
    fn lean_on_root(&self, objections: &mut Objections, too_few: impl FnOnce(&Root) -> bool) {
        self.lean_on(objections, self.root.as_ref().map(|root| &root.header));
        if let Some(root) = &self.root {
            objections.add_if(too_few(root), Refusal::TooFewHeldKeys);
        }
    }

    /// "a current snapshot, whose version is the one the held timestamp lists"
    fn current_snapshot(&self) -> Option<&Snapshot> {
        let listed = self.timestamp.as_ref()?.snapshot.version;
        self.snapshot
            .as_ref()
            .filter(|snapshot| snapshot.header.version == listed)
    }

    /// "current targets, whose version is the listed one"
    fn current_targets(&self) -> Option<&HeldTargets> {
        let listed = self.listed_targets()?.version;
        self.targets.as_ref().filter(|targets| targets.header.version == listed)
    }

    /// "the `targets.json` entry" of the held snapshot.
    fn listed_targets(&self) -> Option<&Listed> {
        self.snapshot.as_ref()?.meta.get("targets.json")
    }
}

/// "A path of length 0 or above 128 is 15." Such a name is in no list, and no other bytes than UTF-8 are.
fn image_of(path: &[u8], images: &BTreeMap<String, Target>) -> Option<Target> {
    let path = std::str::from_utf8(path).ok()?;
    let fits = TARGET_NAME_BYTES.contains(&path.len());
    images.get(path).filter(|_| fits).cloned()
}

/// "exactly the smaller ones, and one more where one is left": counted over the whole list, in whatever order it stands.
fn compared_with(path: &[u8], images: &BTreeMap<String, Target>) -> usize {
    let names = || images.keys().map(String::as_bytes);
    let smaller = names().filter(|name| *name < path).count();
    let is_one_left = names().any(|name| name >= path);
    smaller + usize::from(is_one_left)
}

/// Image (5, 8): "the found length and digest against the fetched ones".
pub fn image(found: (u64, &[u8]), fetched: (u64, &[u8])) -> Result<(), Refusal> {
    let mut objections = Objections::default();
    for (_, digest) in [found, fetched] {
        objections.add_if(!is_digest(digest), Refusal::BrokenArgument);
    }
    objections.add_if(found != fetched, Refusal::Differs);
    objections.first()
}

/// "one byte for each signature entry, in file order, 1 for verifies [..], 0 for does not"
fn is_row(row: &[u8], entries: &[Entry]) -> bool {
    row.len() == entries.len() && row.iter().all(|verdict| *verdict <= 1)
}

fn is_digest(digest: &[u8]) -> bool {
    digest.len() == DIGEST_BYTES
}

/// The digest of a file in hex.
fn digest_of(file: &[u8]) -> String {
    hex::written(&sha256::digest(file))
}

/// "A key counts once for a role if that role names it and some entry with its keyid has verdict 1. Entries of other
/// keys count nothing."
fn enough(role: &Role, entries: &[Entry], row: &[u8]) -> bool {
    let verified: BTreeSet<String> = entries
        .iter()
        .zip(row)
        .filter(|(_, verdict)| **verdict == 1)
        .map(|(entry, _)| entry.keyid.clone())
        .collect();
    role.keyids.intersection(&verified).count() as u64 >= role.threshold
}

/// "Length and digest are compared where listed. Version equals the listed one."
fn judge_listed(objections: &mut Objections, listed: &Listed, file: &[u8], header: &Header) {
    let other_length = listed.length.is_some_and(|length| length != file.len() as u64);
    let other_digest = listed.sha256.as_ref().is_some_and(|sha256| *sha256 != digest_of(file));
    objections.add_if(other_length || other_digest, Refusal::Differs);
    objections.add_if(header.version != listed.version, Refusal::WrongVersion);
}

/// Not so: "Every name in the held snapshot is still listed, with a version not lower."
fn went_back(held: &Snapshot, new: &Snapshot) -> bool {
    held.meta.iter().any(|(name, held)| match new.meta.get(name) {
        None => true,
        Some(new) => new.version < held.version,
    })
}
