//! "Steps" (01): the trusted state. Each step reads the offered file, asks the table's conditions in rising order, and
//! only then changes the state. The digest of a file is worked out once, by the steps that compare or keep it.

use std::marker::PhantomData;

use crate::forms::Forms;
use crate::hex::Id;
use crate::records::{Header, Listed, Role, Root, Signed, Snapshot, Target, Targets, Timestamp};
use crate::refusal::{Refusal, ensure};
use crate::sha256;

/// The trusted state; its steps read files by `F`.
#[derive(Clone, Debug)]
pub struct State<F> {
    root: Option<Root>,
    timestamp: Option<Timestamp>,
    snapshot: Option<Snapshot>,
    targets: Option<HeldTargets>,
    start: i64,
    forms: PhantomData<F>,
}

/// "The file's digest is kept."
#[derive(Clone, Debug)]
struct HeldTargets {
    header: Header,
    digest: Id,
}

/// What find gives.
#[derive(Clone, Debug, PartialEq, Eq)]
pub struct Found {
    /// The image, or why none is given.
    pub image: Result<Target, Refusal>,
    /// "how many names it compared"; with a refusal of 1 to 8 none.
    pub compared: usize,
}

impl<F> Default for State<F> {
    /// "the blank state, which holds no record and has the lowest signed 64-bit count as its start time"
    fn default() -> State<F> {
        State {
            root: None,
            timestamp: None,
            snapshot: None,
            targets: None,
            start: i64::MIN,
            forms: PhantomData,
        }
    }
}

impl<F: Forms> State<F> {
    /// Install (1 to 5, 10, 16): "a root judged by its own root role. No expiry check."
    pub fn install(file: &[u8], row: &[u8], start: i64) -> Result<State<F>, Refusal> {
        let Signed { entries, says: root } = F::root(file)?;
        check_row(row, &entries)?;
        ensure(root.is_signed(root.root, &entries, row), Refusal::FewOwnKeys)?;
        Ok(State {
            root: Some(root),
            start,
            ..State::default()
        })
    }

    /// New cycle (17). A8: one with an earlier start time than "the latest start time it has had" is refused; "an equal one
    /// passes". None is set but by an accepted install or cycle, so the one in force is the latest.
    pub fn new_cycle(&mut self, start: i64) -> Result<(), Refusal> {
        ensure(start >= self.start, Refusal::EarlierStart)?;
        self.start = start;
        Ok(())
    }

    /// Root (1 to 6, 9, 10, 11, 16): the verdicts under the held root's keys, and those under its own.
    pub fn root(&mut self, file: &[u8], held_row: &[u8], own_row: &[u8]) -> Result<(), Refusal> {
        let Signed { entries, says: new } = F::root(file)?;
        check_row(held_row, &entries)?;
        check_row(own_row, &entries)?;
        let held = self.root.as_ref().ok_or(Refusal::NotHeld)?;
        ensure(held.is_signed(held.root, &entries, held_row), Refusal::FewHeldKeys)?;
        ensure(new.is_signed(new.root, &entries, own_row), Refusal::FewOwnKeys)?;
        ensure(new.header.version == held.header.version + 1, Refusal::WrongVersion)?;

        // A5: "a role is rotated when its set of keyids or its threshold differs"
        let rotated = |role: fn(&Root) -> Role| {
            let (before, after) = (role(held), role(&new));
            before.threshold != after.threshold || !held.keyids(before).eq(new.keyids(after))
        };
        let drops_all = rotated(|root| root.timestamp) || rotated(|root| root.snapshot);
        if drops_all || rotated(|root| root.targets) {
            self.targets = None;
        }
        if drops_all {
            self.timestamp = None;
            self.snapshot = None;
        }
        self.root = Some(new);
        Ok(())
    }

    /// Timestamp (1 to 7, 9, 11 to 14): "leans on root".
    pub fn timestamp(&mut self, file: &[u8], row: &[u8]) -> Result<(), Refusal> {
        let Signed { entries, says: new } = F::timestamp(file)?;
        check_row(row, &entries)?;
        let root = self.root.as_ref().ok_or(Refusal::NotHeld)?;
        self.check_held(&root.header)?;
        ensure(root.is_signed(root.timestamp, &entries, row), Refusal::FewHeldKeys)?;
        if let Some(held) = &self.timestamp {
            ensure(new.header.version >= held.header.version, Refusal::WrongVersion)?;
            ensure(new.header.version != held.header.version, Refusal::NoNews)?;
            ensure(new.snapshot.version >= held.snapshot.version, Refusal::WentBack)?;
        }
        self.check_offered(&new.header)?;
        self.timestamp = Some(new);
        Ok(())
    }

    /// Snapshot (1 to 9, 11, 13, 14): "needs a timestamp, leans on root and timestamp".
    pub fn snapshot(&mut self, file: &[u8], row: &[u8]) -> Result<(), Refusal> {
        let Signed { entries, says: new } = F::snapshot(file)?;
        check_row(row, &entries)?;
        let root = self.root.as_ref().ok_or(Refusal::NotHeld)?;
        let timestamp = self.timestamp.as_ref().ok_or(Refusal::NotHeld)?;
        self.check_held(&root.header)?;
        self.check_held(&timestamp.header)?;
        check_content(&timestamp.snapshot, file, &sha256::digest(file))?;
        ensure(root.is_signed(root.snapshot, &entries, row), Refusal::FewHeldKeys)?;
        ensure(new.header.version == timestamp.snapshot.version, Refusal::WrongVersion)?;
        if let Some(held) = &self.snapshot {
            ensure(still_lists(&new, held), Refusal::WentBack)?;
        }
        self.check_offered(&new.header)?;
        self.snapshot = Some(new);
        Ok(())
    }

    /// Targets (1 to 9, 11, 14): "needs a current snapshot", "leans on root, timestamp, snapshot".
    pub fn targets(&mut self, file: &[u8], row: &[u8]) -> Result<(), Refusal> {
        let Signed { entries, says: new } = F::targets(file, None)?;
        check_row(row, &entries)?;
        let root = self.root.as_ref().ok_or(Refusal::NotHeld)?;
        let (timestamp, snapshot) = self.current_snapshot().ok_or(Refusal::NotHeld)?;
        self.check_held(&root.header)?;
        self.check_held(&timestamp.header)?;
        self.check_held(&snapshot.header)?;
        let listed = snapshot.targets_entry().ok_or(Refusal::NotHeld)?;
        let digest = sha256::digest(file);
        check_content(listed, file, &digest)?;
        ensure(root.is_signed(root.targets, &entries, row), Refusal::FewHeldKeys)?;
        ensure(new.header.version == listed.version, Refusal::WrongVersion)?;
        self.check_offered(&new.header)?;
        self.targets = Some(HeldTargets {
            header: new.header,
            digest,
        });
        Ok(())
    }

    /// Find (1 to 4, 6 to 8, 15): the length and digest of an image, and how many names were compared. "Needs current targets
    /// .. and a current snapshot; leans on all four."
    pub fn find(&self, file: &[u8], path: &[u8]) -> Found {
        match self.search(file, path) {
            // A path of length 0 or above 128 is no name of a targets file.
            Ok(given) => Found {
                image: given.found.ok_or(Refusal::NotListed),
                compared: given.compared,
            },
            Err(refusal) => Found {
                image: Err(refusal),
                compared: 0,
            },
        }
    }

    /// The targets file that is held, searched for the path (1 to 4, 6 to 8).
    fn search(&self, file: &[u8], path: &[u8]) -> Result<Targets, Refusal> {
        let given = F::targets(file, Some(path))?.says;
        let root = self.root.as_ref().ok_or(Refusal::NotHeld)?;
        let (timestamp, snapshot) = self.current_snapshot().ok_or(Refusal::NotHeld)?;
        let targets = self.current_targets(snapshot).ok_or(Refusal::NotHeld)?;
        for header in [&root.header, &timestamp.header, &snapshot.header, &targets.header] {
            self.check_held(header)?;
        }
        ensure(sha256::digest(file) == targets.digest, Refusal::OtherContent)?;
        Ok(given)
    }

    /// The held versions of root, timestamp, snapshot and targets, and the start time in force.
    pub fn versions(&self) -> ([Option<u64>; 4], i64) {
        let versions = [
            self.root.as_ref().map(|root| root.header.version),
            self.timestamp.as_ref().map(|timestamp| timestamp.header.version),
            self.snapshot.as_ref().map(|snapshot| snapshot.header.version),
            self.targets.as_ref().map(|targets| targets.header.version),
        ];
        (versions, self.start)
    }

    /// The held timestamp, and the snapshot "whose version is the one the held timestamp lists".
    fn current_snapshot(&self) -> Option<(&Timestamp, &Snapshot)> {
        let timestamp = self.timestamp.as_ref()?;
        let snapshot = self.snapshot.as_ref()?;
        (snapshot.header.version == timestamp.snapshot.version).then_some((timestamp, snapshot))
    }

    /// "current targets, whose version is the listed one"
    fn current_targets(&self, snapshot: &Snapshot) -> Option<&HeldTargets> {
        let listed = snapshot.targets_entry()?.version;
        self.targets.as_ref().filter(|targets| targets.header.version == listed)
    }

    fn check_held(&self, header: &Header) -> Result<(), Refusal> {
        ensure(!self.is_past(header), Refusal::HeldExpired)
    }

    fn check_offered(&self, header: &Header) -> Result<(), Refusal> {
        ensure(!self.is_past(header), Refusal::OfferedExpired)
    }

    /// "expires is at or below the start time in force"
    fn is_past(&self, header: &Header) -> bool {
        header.expires <= self.start
    }
}

impl Root {
    /// "A key counts once for a role if that role names it and some entry with its keyid has verdict 1."
    fn is_signed(&self, role: Role, entries: &[Id], row: &[u8]) -> bool {
        let mut signers = 0u16;
        for (entry, verdict) in entries.iter().zip(row) {
            if *verdict == 1
                && let Some(place) = self.keys.iter().position(|key| key.keyid == *entry)
            {
                signers |= 1 << place;
            }
        }
        (signers & role.keys).count_ones() >= role.threshold
    }

    /// The keyids of a role in the order of the table, so that equal sets give equal sequences.
    fn keyids(&self, role: Role) -> impl Iterator<Item = &Id> {
        let is_named = move |place: &usize| role.keys & 1 << place != 0;
        (0..self.keys.len())
            .filter(is_named)
            .map(|place| &self.keys[place].keyid)
    }
}

impl Snapshot {
    /// The `targets.json` entry; every snapshot has one.
    fn targets_entry(&self) -> Option<&Listed> {
        let entry = self.meta.iter().find(|(name, _)| name.as_bytes() == b"targets.json");
        entry.map(|(_, listed)| listed)
    }
}

/// "one byte for each signature entry": 0 or 1.
fn check_row(row: &[u8], entries: &[Id]) -> Result<(), Refusal> {
    let is_row = row.len() == entries.len() && row.iter().all(|verdict| *verdict <= 1);
    ensure(is_row, Refusal::BadArgument)
}

/// "Length and digest are compared where listed."
fn check_content(listed: &Listed, file: &[u8], digest: &Id) -> Result<(), Refusal> {
    let same_length = listed.length.is_none_or(|length| length == file.len() as u64);
    let same_digest = listed.sha256.is_none_or(|sha256| sha256 == *digest);
    ensure(same_length && same_digest, Refusal::OtherContent)
}

/// "Every name in the held snapshot is still listed, with a version not lower." Both lists are in the order of the names,
/// so each search goes on where the one before ended.
fn still_lists(new: &Snapshot, held: &Snapshot) -> bool {
    let mut listed = new.meta.iter();
    held.meta.iter().all(|(name, held)| {
        let same_name = listed.find(|(new_name, _)| new_name == name);
        same_name.is_some_and(|(_, new)| new.version >= held.version)
    })
}
