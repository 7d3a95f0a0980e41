//! The honest publisher: roots one after the other, and releases of a timestamp, a snapshot and a targets file that fit
//! what is held. Now and then a release has a flaw of its own, which no digest gives away.

use std::collections::{BTreeMap, BTreeSet};
use std::sync::LazyLock;

use paper::forms;
use paper::state::State;

use super::offers::{Offer, Plan};
use super::signing::{Signing, sign};
use crate::groups::told::{ACCEPTED, answer};
use crate::random::Random;
use crate::shelf::dates;
use crate::shelf::files::{
    self, HIGHEST_VERSION, Header, KEYS_WITH_MORE, Listed, Role, Root, Snapshot, Targets, Timestamp, keyid,
};
use crate::shelf::sha256::{Digest, digest};

/// The keys from which the publisher chooses; some have members that no form names.
fn all_keys() -> impl Iterator<Item = usize> {
    (1..=30).chain(KEYS_WITH_MORE.take(10))
}

/// "keys", 1 to 16
const MOST_KEYS: usize = 16;

/// How many seconds the ordinary start times of a history span.
const SPAN: i64 = 1_000_000;

/// Where the ordinary start times of a history may begin.
const BASES: &[i64] = &[
    1_700_000_000,
    0,
    -SPAN / 2,
    -1,
    -86_400,
    -2_203_891_200,
    dates::FIRST,
    dates::LAST - 20 * SPAN,
    (1 << 31) - SPAN / 2,
    (1 << 32) - SPAN / 2,
];

/// Names for metadata and images: short, long, and next to one another with and without escapes.
const NAMES: &[&str] = &[
    "a",
    "a!",
    "a\"",
    "a#",
    "a\\",
    "a]",
    "\"",
    "\\",
    "\\\\",
    "root.json",
    "project.json",
    "targets.jso",
    "targets.json!",
    "targets.json\"",
    "z\u{e4}\u{20ac}\u{1f600}",
    "0123456789abcdef0123456789abcdef",
];

/// The numbers of the keys by keyid.
static NUMBERS: LazyLock<BTreeMap<&str, usize>> = LazyLock::new(|| {
    let numbers = 0..files::KEYS;
    numbers.map(|key| (keyid(key), key)).collect()
});

/// The first version that is made from a date.
const FIRST_DATE: u64 = 20_260_101_120_000;

/// How a publisher numbers files.
#[derive(Clone, Copy, Debug, PartialEq, Eq)]
enum Numbering {
    /// By hand, from small numbers on.
    Small,
    /// From dates, "like 20260101120000" (A7); the first files may still be numbered by hand.
    Dates,
    /// Near the highest version.
    Highest,
}

/// The publisher of one history.
pub struct Publisher {
    root: Root,
    /// Where the ordinary start times begin after an install, and where they begin now.
    first_base: i64,
    base: i64,
    numbering: Numbering,
}

impl Publisher {
    /// A publisher with a root.
    pub fn new(random: &mut Random) -> Publisher {
        let base = random.pick(BASES);
        Publisher {
            root: Root::new(1, 0),
            first_base: base,
            base,
            numbering: match random.below(6) {
                0 => Numbering::Highest,
                1 | 2 => Numbering::Dates,
                _ => Numbering::Small,
            },
        }
    }

    /// Makes a first root. "Install starts the record anew" (A8), and so the clock may be earlier than it was.
    pub fn begin(&mut self, random: &mut Random) {
        self.base = self.first_base;
        let table = random.pick(&[1, 3, 5, 6, 8, 8, MOST_KEYS]);
        let mut numbers: Vec<usize> = all_keys().collect();
        random.shuffle(&mut numbers);
        let mut root = Root::new(self.first_version(random), self.root_expiry(random));
        root.consistent_snapshot = random.one_in(2);
        root.keys = numbers.iter().take(table).map(|key| (*key, *key)).collect();
        for role in roles(&mut root) {
            *role = any_role(&numbers[..table], random);
        }
        self.root = root;
    }

    /// The root made last.
    pub fn root(&self) -> &Root {
        &self.root
    }

    /// Goes on from this root.
    pub fn set_root(&mut self, root: Root) {
        self.root = root;
    }

    /// A root that says the same as the one held. Keys that no publisher made are left out of its table.
    pub fn made_again(&self, held: &forms::Root) -> Root {
        let role = |held: &forms::Role| {
            let numbers = held.keyids.iter().filter_map(|keyid| NUMBERS.get(&**keyid));
            Role::new(numbers.copied().collect::<Vec<_>>(), held.threshold)
        };
        let keys = held.keys.keys().filter_map(|keyid| NUMBERS.get(&**keyid));
        Root {
            header: Header::new(held.header.version, held.header.expires),
            consistent_snapshot: held.consistent_snapshot,
            keys: keys.map(|key| (*key, *key)).collect(),
            root: role(&held.root),
            timestamp: role(&held.timestamp),
            snapshot: role(&held.snapshot),
            targets: role(&held.targets),
        }
    }

    /// Whether all keys of the roles are the publisher's own. An edited key under its true keyid is another key.
    pub fn knows(&self, held: &forms::Root) -> bool {
        let roles = [&held.root, &held.timestamp, &held.snapshot, &held.targets];
        let mut keyids = roles.into_iter().flat_map(|role| &role.keyids);
        keyids.all(|keyid| NUMBERS.contains_key(&**keyid))
    }

    /// The next root: each role may stay, or be changed in one of many ways.
    pub fn next_root(&mut self, random: &mut Random) -> Root {
        let mut root = self.root.clone();
        root.header = Header::new(root.header.version + 1, self.root_expiry(random));
        if random.one_in(8) {
            root.consistent_snapshot = !root.consistent_snapshot;
        }
        let busy = random.one_in(3);
        for role in roles(&mut root) {
            if random.one_in(if busy { 2 } else { 6 }) {
                change_role(role, random);
            }
        }
        self.fill_table(&mut root, random);
        root
    }

    /// A root that sets things right: it has not expired, and other keys sign timestamps if none can follow the held one.
    pub fn recovering_root(&mut self, state: &State, random: &mut Random) -> Root {
        let mut root = self.root.clone();
        root.header = Header::new(root.header.version + 1, self.base + 2 * SPAN);
        if self.is_stuck(state) {
            let rotated: Vec<usize> = all_keys().filter(|key| !root.timestamp.keys.contains(key)).collect();
            root.timestamp = Role::new([random.pick(&rotated)], 1);
        }
        self.fill_table(&mut root, random);
        root
    }

    /// Puts every key of a role into the table, and others as far as there is room. If there are too many, the roles
    /// share some.
    fn fill_table(&self, root: &mut Root, random: &mut Random) {
        let mut needed: BTreeSet<usize> = roles(root).iter().flat_map(|role| role.keys.clone()).collect();
        if needed.len() > MOST_KEYS {
            let few: Vec<usize> = root.root.keys.iter().take(4).copied().collect();
            root.root.keys = few.clone();
            for role in roles(root) {
                role.keys = few.clone();
                role.threshold = role.threshold.min(few.len() as u64);
            }
            needed = few.into_iter().collect();
        }
        let before = std::mem::take(&mut root.keys);
        root.keys = needed.into_iter().map(|key| (key, key)).collect();
        for key in before.into_keys() {
            if root.keys.len() < MOST_KEYS && random.one_in(2) {
                root.keys.insert(key, key);
            }
        }
    }

    fn first_version(&self, random: &mut Random) -> u64 {
        match self.numbering {
            Numbering::Highest => HIGHEST_VERSION - random.below(4) as u64,
            Numbering::Dates if !random.one_in(3) => FIRST_DATE + random.below(1_000_000_000) as u64,
            _ => random.pick(&[1, 1, 2, 4, 9, 10, 99, 255, 65_535]),
        }
    }

    /// So many steps above a version. Between versions made from dates the steps are of many sizes.
    fn raised(&self, version: u64, steps: u64, random: &mut Random) -> u64 {
        match self.numbering {
            Numbering::Dates if steps > 0 => {
                let step = random.pick(&[1, 1, 60, 10_000, 1_000_000, 1 << 32]);
                version.max(FIRST_DATE) + steps * step
            }
            _ => version + steps,
        }
    }

    /// Mostly after all ordinary start times, now and then among them.
    fn root_expiry(&self, random: &mut Random) -> i64 {
        match random.below(6) {
            0 => self.base + random.below(SPAN as usize) as i64,
            _ => self.base + SPAN + random.below(SPAN as usize) as i64,
        }
    }

    /// One of the ordinary start times.
    pub fn ordinary_time(&self, random: &mut Random) -> i64 {
        self.base + random.below(SPAN as usize) as i64
    }

    /// An ordinary start time that is not earlier than this one, which is not ahead of them.
    pub fn later_time(&self, time: i64, random: &mut Random) -> i64 {
        let step = random.pick(&[0, 0, 1, 60, 3_600, 86_400]);
        (time.max(self.base) + step).min(self.base + SPAN - 1)
    }

    /// Has the ordinary start times begin at this one if it is ahead of them. False if there are not dates enough after it.
    pub fn follow(&mut self, time: i64) -> bool {
        if time >= self.base + SPAN && time <= dates::LAST - 4 * SPAN {
            self.base = time;
        }
        time < self.base + SPAN
    }

    /// Whether it is an ordinary start time.
    pub fn is_ordinary(&self, time: i64) -> bool {
        (self.base..self.base + SPAN).contains(&time)
    }

    /// Whether a timestamp or the snapshot it lists has come to the highest version.
    pub fn is_stuck(&self, state: &State) -> bool {
        let held = state.timestamp.as_ref();
        held.is_some_and(|held| held.header.version == HIGHEST_VERSION)
    }

    /// Files that go on from what is held.
    pub fn release(&self, state: &State, random: &mut Random) -> Release {
        let made_again = state.root.as_ref().map(|held| self.made_again(held));
        let root = made_again.as_ref().unwrap_or(&self.root);
        let flaw = if random.one_in(4) {
            random.pick(FLAWS)
        } else {
            Flaw::None
        };
        let mut maker = Maker {
            publisher: self,
            state,
            root,
            flaw,
            random,
        };
        maker.release()
    }
}

/// The roles of a root.
fn roles(root: &mut Root) -> [&mut Role; 4] {
    [
        &mut root.root,
        &mut root.timestamp,
        &mut root.snapshot,
        &mut root.targets,
    ]
}

fn any_role(keys: &[usize], random: &mut Random) -> Role {
    let mut keys = keys.to_vec();
    random.shuffle(&mut keys);
    keys.truncate(random.pick(&[1, 1, 2, 2, 3, 4]));
    let threshold = random.between(1, keys.len()) as u64;
    Role::new(keys, threshold)
}

/// A key more, a key less, other keys, another order, another threshold.
fn change_role(role: &mut Role, random: &mut Random) {
    let others: Vec<usize> = all_keys().filter(|key| !role.keys.contains(key)).collect();
    match random.below(6) {
        0 if role.keys.len() < 8 => role.keys.push(random.pick(&others)),
        1 if role.keys.len() > 1 => drop(role.keys.pop()),
        2 => role.keys[0] = random.pick(&others),
        3 => random.shuffle(&mut role.keys),
        4 => role.threshold = random.between(1, role.keys.len()) as u64,
        _ => *role = any_role(&others, random),
    }
    role.threshold = role.threshold.clamp(1, role.keys.len() as u64);
}

/// What is wrong with a release from the start.
#[derive(Clone, Copy, Debug, PartialEq, Eq)]
enum Flaw {
    None,
    NameVanished,
    NameLowered,
    SnapshotLength,
    SnapshotDigest,
    SnapshotVersion,
    TargetsLength,
    TargetsDigest,
    TargetsVersion,
    TimestampExpired,
    SnapshotExpired,
    TargetsExpired,
    SnapshotThin,
    TargetsThin,
}

const FLAWS: &[Flaw] = &[
    Flaw::NameVanished,
    Flaw::NameVanished,
    Flaw::NameLowered,
    Flaw::NameLowered,
    Flaw::SnapshotLength,
    Flaw::SnapshotDigest,
    Flaw::SnapshotVersion,
    Flaw::TargetsLength,
    Flaw::TargetsDigest,
    Flaw::TargetsVersion,
    Flaw::TimestampExpired,
    Flaw::SnapshotExpired,
    Flaw::TargetsExpired,
    Flaw::SnapshotThin,
    Flaw::TargetsThin,
];

/// A timestamp, a snapshot and a targets file.
pub struct Release {
    /// In the order in which they are offered.
    pub offers: [Offer; 3],
    /// Whether each is accepted if they are offered in this order to the state they were made for.
    pub honest: bool,
}

/// Makes a release.
struct Maker<'a> {
    publisher: &'a Publisher,
    state: &'a State,
    root: &'a Root,
    flaw: Flaw,
    random: &'a mut Random,
}

impl Maker<'_> {
    fn release(&mut self) -> Release {
        let targets = self.targets();
        let snapshot = self.snapshot(&targets);
        let timestamp = self.timestamp(&snapshot);
        let mut offers = [timestamp, snapshot, targets];
        let time = self.state.time;
        let is_good = |root: &forms::Root| root.header.expires > time && self.publisher.knows(root);
        let is_root_good = self.state.root.as_ref().is_some_and(is_good);
        let can_rise = !self.publisher.is_stuck(self.state);
        let are_good = offers.iter_mut().all(|offer| offer.plan.header().expires > time);
        Release {
            honest: self.flaw == Flaw::None && is_root_good && can_rise && are_good,
            offers,
        }
    }

    fn targets(&mut self) -> Offer {
        let held = self
            .state
            .snapshot
            .as_ref()
            .and_then(|held| held.meta.get("targets.json"));
        let version = self.version(held.map(|listed| listed.version), &[0, 1, 1, 2]);
        let header = Header::new(version, self.expiry(Flaw::TargetsExpired));
        let count = self.random.pick(&[0, 1, 2, 3, 4, 6]);
        let targets = (0..count).map(|_| (self.image_name(), self.image())).collect();
        let signing = self.signing(|root| &root.targets, Flaw::TargetsThin);
        Offer::new(Plan::Targets(Targets { header, targets }), signing)
    }

    fn image(&mut self) -> (u64, Digest) {
        let length = self.random.pick(&[0, 1, 31, 39, 65_536, 4_294_967_294, 4_294_967_295]);
        (length, digest(&[self.random.byte()]))
    }

    fn image_name(&mut self) -> String {
        match self.random.below(6) {
            0 => "\\\"".repeat(64),
            1 => "x".repeat(self.random.pick(&[1, 127, 128])),
            _ => self.random.pick(NAMES).to_string(),
        }
    }

    fn snapshot(&mut self, targets: &Offer) -> Offer {
        let held = self.state.timestamp.as_ref().map(|held| held.snapshot.version);
        let version = self.version(held, &[0, 1, 1, 2]);
        let mut header = Header::new(version, self.expiry(Flaw::SnapshotExpired));
        if self.random.one_in(4) {
            header.spec_version = "1".to_string();
        }
        let mut meta = self.names();
        let mut listed = self.listed(targets, Flaw::TargetsLength, Flaw::TargetsDigest);
        if self.flaw == Flaw::TargetsVersion {
            listed.version += 1;
        }
        meta.insert("targets.json".to_string(), listed);
        self.spoil_names(&mut meta);
        let signing = self.signing(|root| &root.snapshot, Flaw::SnapshotThin);
        Offer::new(Plan::Snapshot(Snapshot { header, meta }), signing)
    }

    /// The names of the held snapshot, none lower, and often some more.
    fn names(&mut self) -> BTreeMap<String, Listed> {
        let mut names = BTreeMap::new();
        for (name, listed) in self.state.snapshot.iter().flat_map(|held| &held.meta) {
            let version = self.version(Some(listed.version), &[0, 0, 1]);
            names.insert(name.clone(), Listed::version(version));
        }
        let more = self.random.pick(&[0, 0, 1, 2, 3]);
        for _ in 0..more {
            let name = self.random.pick(NAMES).to_string();
            if names.len() < 31 && !names.contains_key(&name) {
                let version = self.version(None, &[0]);
                names.insert(name, Listed::whole(version, b"another file"));
            }
        }
        names
    }

    fn spoil_names(&mut self, names: &mut BTreeMap<String, Listed>) {
        let held: Vec<&String> = match &self.state.snapshot {
            Some(held) => held.meta.keys().collect(),
            None => return,
        };
        let name = held[self.random.below(held.len())];
        match self.flaw {
            Flaw::NameVanished if name != "targets.json" => drop(names.remove(name)),
            Flaw::NameLowered => {
                let listed = names.get_mut(name).expect("every held name is listed");
                listed.version = self.state.snapshot.as_ref().map_or(1, |held| held.meta[name].version) - 1;
            }
            _ => {}
        }
    }

    fn timestamp(&mut self, snapshot: &Offer) -> Offer {
        let held = self.state.timestamp.as_ref().map(|held| held.header.version);
        let version = self.version(held, &[1, 1, 2, 3]);
        let header = Header::new(version, self.expiry(Flaw::TimestampExpired));
        let mut listed = self.listed(snapshot, Flaw::SnapshotLength, Flaw::SnapshotDigest);
        if self.flaw == Flaw::SnapshotVersion {
            listed.version += 1;
        }
        let signing = self.signing(|root| &root.timestamp, Flaw::None);
        let timestamp = Timestamp {
            header,
            snapshot: listed,
        };
        Offer::new(Plan::Timestamp(timestamp), signing)
    }

    /// A version that goes on from the held one by one of the steps, as far as there are versions.
    fn version(&mut self, held: Option<u64>, steps: &[u64]) -> u64 {
        let version = match held {
            Some(held) => {
                let steps = self.random.pick(steps);
                self.publisher.raised(held, steps, self.random)
            }
            None => self.publisher.first_version(self.random),
        };
        version.min(HIGHEST_VERSION)
    }

    /// After the start time in force, often just after it.
    fn expiry(&mut self, flaw: Flaw) -> i64 {
        let time = match self.publisher.is_ordinary(self.state.time) {
            true => self.state.time,
            false => self.publisher.base,
        };
        if self.flaw == flaw {
            return time - self.random.below(2) as i64;
        }
        time + self.random.pick(&[1, 2, 60, 86_400, SPAN, SPAN, 2 * SPAN, 2 * SPAN])
    }

    /// What is listed of a file: its version, and the length and digest or only some of this.
    fn listed(&mut self, offer: &Offer, other_length: Flaw, other_digest: Flaw) -> Listed {
        let file = files::file(offer.plan.signed(), &offer.signing.keys).written();
        let version = offer.plan.clone().header().version;
        let mut listed = Listed::whole(version, &file);
        if self.flaw == other_length {
            listed.length = Some(file.len() as u64 + self.random.pick(&[1, 256, 65_536, 4_294_900_000]));
        } else if self.flaw == other_digest {
            let byte = self.random.below(32);
            listed.sha256.as_mut().expect("all is listed")[byte] ^= 1 << self.random.below(8);
        } else {
            if self.random.one_in(2) {
                listed.length = None;
            }
            if self.random.one_in(2) {
                listed.sha256 = None;
            }
        }
        listed
    }

    fn signing(&mut self, role: fn(&Root) -> &Role, thin: Flaw) -> Signing {
        let is_enough = self.flaw != thin || thin == Flaw::None;
        sign(&[(role(self.root), is_enough)], self.random)
    }
}

/// What the publisher's next root answers in a state that holds the other one, if it is a root at all.
pub fn root_answer(state: &State, held: &Root, new: &Root) -> Option<String> {
    if new.header.version > HIGHEST_VERSION {
        return None;
    }
    // "a role is rotated when its set of keyids or its threshold differs"
    let meant = |role: &Role| (role.keys.iter().copied().collect::<BTreeSet<_>>(), role.threshold);
    let rotated = |role: fn(&Root) -> &Role| meant(role(held)) != meant(role(new));
    let drops_all = rotated(|root| &root.timestamp) || rotated(|root| &root.snapshot);
    let drops_targets = drops_all || rotated(|root| &root.targets);
    let [_, timestamp, snapshot, targets] = versions(state);
    let kept = |version: Option<u64>, drops: bool| version.filter(|_| !drops);
    let versions = [
        Some(new.header.version),
        kept(timestamp, drops_all),
        kept(snapshot, drops_all),
        kept(targets, drops_targets),
    ];
    Some(answer("root", ACCEPTED, &versions, state.time))
}

/// What an honest step answers.
pub fn step_answer(state: &State, plan: &Plan) -> Option<String> {
    let mut versions = versions(state);
    let version = Some(plan.clone().header().version);
    let name = match plan {
        Plan::Timestamp(_) => {
            versions[1] = version;
            "timestamp"
        }
        Plan::Snapshot(_) => {
            versions[2] = version;
            "snapshot"
        }
        Plan::Targets(_) => {
            versions[3] = version;
            "targets"
        }
        Plan::First(..) | Plan::Root(_) => return None,
    };
    Some(answer(name, ACCEPTED, &versions, state.time))
}

/// The versions held.
pub fn versions(state: &State) -> [Option<u64>; 4] {
    [
        state.root.as_ref().map(|held| held.header.version),
        state.timestamp.as_ref().map(|held| held.header.version),
        state.snapshot.as_ref().map(|held| held.header.version),
        state.targets.as_ref().map(|held| held.header.version),
    ]
}
