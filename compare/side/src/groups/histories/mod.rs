//! Whole histories: an honest publisher's files, and between them everything that an attacker, a careless caller or a
//! wrong clock can do. What the publisher's own calls answer is known by the way they are made, and what a cycle answers by
//! the start times before it.

mod faults;
mod offers;
mod publisher;
mod signing;

use std::collections::BTreeSet;

use super::told::{Clock, answer};
use super::{Recorder, texts};
use crate::calls::Call;
use crate::compare::{Case, Cases, Group};
use crate::random::Random;
use crate::shelf::dates;
use crate::shelf::files::{HIGHEST_VERSION, Role, Root, keyid};
use crate::shelf::sha256::digest;
use faults::FAULTS;
use offers::{Offer, Plan};
use publisher::Publisher;

/// How many histories there are, and how many calls each has at least.
const HISTORIES: usize = 2_000;
const CALLS: usize = 60;

/// The group.
pub fn groups() -> Vec<Group> {
    vec![Group {
        name: "histories",
        calls: &[
            "look",
            "entry",
            "key",
            "install",
            "cycle",
            "root",
            "timestamp",
            "snapshot",
            "targets",
            "find",
            "image",
            "state",
        ],
        cases: histories,
        least: HISTORIES * CALLS,
        shares: &[
            ("install 0", 1),
            ("root 0", 2),
            ("timestamp 0", 4),
            ("snapshot 0", 3),
            ("targets 0", 2),
            ("find 0", 3),
        ],
        complete: &[
            "look",
            "entry",
            "key",
            "install",
            "cycle",
            "root",
            "timestamp",
            "snapshot",
            "targets",
            "find",
            "image",
        ],
        renewed: true,
    }]
}

fn histories(seed: u64) -> Cases {
    Box::new((0..HISTORIES).flat_map(move |number| History::new(seed, number).played()))
}

/// The calls of one history. Its number tells it from the others of the seed.
pub fn calls(seed: u64, number: usize) -> Vec<Call> {
    let cases = History::new(seed, number).played();
    cases.iter().filter_map(|case| case.call().cloned()).collect()
}

/// One history while it is made.
pub struct History {
    random: Random,
    script: Recorder,
    /// The start time in force, known by the calls that were made.
    clock: Clock,
    publisher: Publisher,
    /// Calls that offered a file, to be made again.
    offered: Vec<Call>,
    /// The keyids of all roots held so far.
    keyids: BTreeSet<String>,
    /// The targets files accepted so far.
    targets: Vec<Vec<u8>>,
}

impl History {
    fn new(seed: u64, number: usize) -> History {
        let mut random = Random::new(seed, &format!("history {number}"));
        History {
            publisher: Publisher::new(&mut random),
            random,
            script: Recorder::default(),
            clock: Clock::default(),
            offered: Vec::new(),
            keyids: BTreeSet::new(),
            targets: Vec::new(),
        }
    }

    fn played(mut self) -> Vec<Case> {
        self.beginning();
        while self.script.cases.len() < CALLS {
            match self.random.below(16) {
                0 | 1 => self.wrong_clock(),
                2 => self.make_again(),
                3 if self.random.one_in(3) => self.beginning(),
                3..6 => self.roots(),
                6 => self.questions(),
                _ => self.release(),
            }
        }
        self.script.take()
    }

    /// The start time in force.
    fn time(&self) -> i64 {
        self.clock.time()
    }

    /// The version held of a file's role, 0 if none is.
    fn held_version(&self, plan: &Plan) -> u64 {
        let state = self.script.state();
        let header = match plan {
            Plan::First(..) | Plan::Root(_) => state.root.as_ref().map(|held| &held.header),
            Plan::Timestamp(_) => state.timestamp.as_ref().map(|held| &held.header),
            Plan::Snapshot(_) => state.snapshot.as_ref().map(|held| &held.header),
            Plan::Targets(_) => state.targets.as_ref().map(|held| &held.header),
        };
        header.map_or(0, |header| header.version)
    }

    /// The roles whose keys judge a file, in the order of its rows; on a blank state those of the publisher's root.
    fn judges(&self, plan: &Plan) -> Vec<Role> {
        let held = self.held_root();
        let held = held.as_ref().unwrap_or(self.publisher.root());
        match plan {
            Plan::First(root, _) => vec![root.root.clone()],
            Plan::Root(root) => vec![held.root.clone(), root.root.clone()],
            Plan::Timestamp(_) => vec![held.timestamp.clone()],
            Plan::Snapshot(_) => vec![held.snapshot.clone()],
            Plan::Targets(_) => vec![held.targets.clone()],
        }
    }

    /// The held root as the publisher would have made it. `None` on a blank state.
    fn held_root(&self) -> Option<Root> {
        let held = self.script.state().root.as_ref()?;
        Some(self.publisher.made_again(held))
    }

    /// The same, if the publisher can go on from it.
    fn own_root(&self) -> Option<Root> {
        let held = self.script.state().root.as_ref();
        held.filter(|held| self.publisher.knows(held))
            .map(|held| self.publisher.made_again(held))
    }

    /// Offers a file. If its answer is known, by the way it was made, it is the number and the versions held.
    fn offer(&mut self, offer: &Offer, stated: Option<String>) {
        let call = offer.call(&mut self.random);
        self.offered.push(call.clone());
        self.make(call, stated);
    }

    /// Makes a call that offers a file, and notes what was accepted.
    fn make(&mut self, call: Call, stated: Option<String>) {
        let targets = match &call {
            Call::Targets { file, .. } => Some(file.clone()),
            _ => None,
        };
        let started = match &call {
            Call::Install { time, .. } => Some(*time),
            _ => None,
        };
        let answer = match stated {
            Some(stated) => self.script.stated(call, stated),
            None => self.script.open(call),
        };
        if let Some(time) = started {
            self.clock = match answer.starts_with("install 0 ") {
                true => Clock::starting(time),
                false => Clock::default(),
            };
        }
        if answer.starts_with("targets 0 ") {
            self.targets.extend(targets);
        }
        if answer.starts_with("root 0 ") || answer.starts_with("install 0 ") {
            let root = self.script.state().root.iter();
            self.keyids.extend(root.flat_map(|root| root.keys.keys().cloned()));
        }
    }

    /// Offers a file that has one fault or two.
    fn offer_spoilt(&mut self, offer: &Offer) {
        let mut spoilt = offer.clone();
        let count = self.random.pick(&[1, 1, 1, 2, 2, 3]);
        for _ in 0..count {
            self.random.pick(FAULTS)(self, &mut spoilt);
        }
        self.offer(&spoilt, None);
    }

    /// A first root. Before it some that are refused, and calls on a blank state.
    fn beginning(&mut self) {
        self.publisher.begin(&mut self.random);
        let time = self.publisher.ordinary_time(&mut self.random);
        let root = self.publisher.root().clone();
        let signing = signing::sign(&[(&root.root, true)], &mut self.random);
        let offer = Offer::new(Plan::First(root, time), signing);
        for _ in 0..self.random.pick(&[0, 0, 1, 2]) {
            self.offer_spoilt(&offer);
            self.blank_calls();
        }
        let version = self.publisher.root().header.version;
        let stated = format!("install 0 root={version} timestamp=- snapshot=- targets=- time={time}");
        self.offer(&offer, Some(stated));
        self.targets.clear();
    }

    /// Calls that are made whatever is held, most often nothing.
    fn blank_calls(&mut self) {
        for _ in 0..self.random.below(4) {
            match self.random.below(6) {
                0 => {
                    let root = self.publisher.next_root(&mut self.random);
                    self.offer_any(Plan::Root(root));
                }
                1 => self.find(),
                2 => self.ask_key(),
                3 if self.random.one_in(2) => self.cycle_back(),
                3 => {
                    let time = self.publisher.ordinary_time(&mut self.random);
                    self.cycle(time);
                }
                _ => {
                    let release = self.publisher.release(self.script.state(), &mut self.random);
                    let number = self.random.below(release.offers.len());
                    self.offer(&release.offers[number], None);
                }
            }
        }
    }

    /// Offers a file signed by enough keys, with nothing known of its answer.
    fn offer_any(&mut self, plan: Plan) {
        let judges = self.judges(&plan);
        let judges: Vec<(&Role, bool)> = judges.iter().map(|role| (role, true)).collect();
        let signing = signing::sign(&judges, &mut self.random);
        self.offer(&Offer::new(plan, signing), None);
    }

    /// A new cycle, whose answer follows from the start time in force. It changes no record.
    fn cycle(&mut self, time: i64) {
        let number = self.clock.cycle(time);
        let held = publisher::versions(self.script.state());
        let stated = answer("cycle", number, &held, self.time());
        self.script.stated(Call::Cycle(time), stated);
    }

    /// A cycle that is refused, unless the clock is at its lowest.
    fn cycle_back(&mut self) {
        let back = self
            .random
            .pick(&[1, 1, 2, 60, 86_400, 365 * 86_400, 1 << 32, i64::MAX]);
        self.cycle(self.time().saturating_sub(back));
    }

    /// A clock that went back, is at an end of its range, or about the expiry of something held; and calls while it is so.
    fn wrong_clock(&mut self) {
        let state = self.script.state();
        let expiries = [
            state.root.as_ref().map(|held| held.header.expires),
            state.timestamp.as_ref().map(|held| held.header.expires),
            state.snapshot.as_ref().map(|held| held.header.expires),
            state.targets.as_ref().map(|held| held.header.expires),
        ];
        let mut times = vec![
            i64::MIN,
            i64::MAX,
            i64::MIN + 1,
            i64::MAX - 1,
            -1,
            0,
            dates::FIRST,
            dates::LAST,
        ];
        for expires in expiries.into_iter().flatten() {
            times.extend([expires - 1, expires, expires - 1, expires, expires + 1]);
        }
        match self.random.one_in(3) {
            true => self.cycle_back(),
            false => {
                let time = self.random.pick(&times);
                self.cycle(time);
            }
        }
        for _ in 0..self.random.between(1, 3) {
            match self.random.below(5) {
                0 => self.make_again(),
                1 => self.blank_calls(),
                2 => {
                    let release = self.publisher.release(self.script.state(), &mut self.random);
                    for offer in &release.offers {
                        self.offer(offer, None);
                    }
                }
                _ => self.find(),
            }
        }
    }

    /// Makes a few earlier calls again as they were.
    fn make_again(&mut self) {
        for _ in 0..self.random.between(1, 3) {
            if !self.offered.is_empty() {
                let call = self.offered[self.random.below(self.offered.len())].clone();
                if !matches!(call, Call::Install { .. }) || self.random.one_in(8) {
                    self.make(call, None);
                }
            }
        }
    }

    /// One or more roots of the publisher, with others between them.
    fn roots(&mut self) {
        for _ in 0..self.random.pick(&[1, 1, 2, 3]) {
            let Some(held) = self.own_root() else { return };
            self.publisher.set_root(held);
            let mut root = self.publisher.next_root(&mut self.random);
            // "Expiry does not matter here."
            if self.random.one_in(6) {
                root.header.expires = self.time();
            }
            let judges = self.judges(&Plan::Root(root.clone()));
            let signing = signing::sign(&[(&judges[0], true), (&judges[1], true)], &mut self.random);
            let offer = Offer::new(Plan::Root(root.clone()), signing);
            let before = self.script.state().clone();
            for _ in 0..self.random.pick(&[0, 1, 1, 2]) {
                self.offer_spoilt(&offer);
            }
            let unchanged = *self.script.state() == before;
            let stated = publisher::root_answer(&before, self.publisher.root(), &root);
            self.offer(&offer, stated.filter(|_| unchanged));
        }
    }

    /// A timestamp, a snapshot and a targets file of the publisher, with others between them; then some images are
    /// looked for.
    fn release(&mut self) {
        if !self.random.one_in(5) {
            self.set_things_right();
        }
        let release = self.publisher.release(self.script.state(), &mut self.random);
        let mut honest = release.honest;
        for offer in &release.offers {
            if self.random.one_in(16) {
                honest = false;
                continue;
            }
            let before = self.script.state().clone();
            for _ in 0..self.random.pick(&[0, 0, 1, 1, 2]) {
                self.offer_spoilt(offer);
            }
            if self.random.one_in(8) {
                self.cycle_back();
            }
            honest &= *self.script.state() == before;
            let stated = publisher::step_answer(&before, &offer.plan);
            self.offer(offer, stated.filter(|_| honest));
        }
        for _ in 0..self.random.between(1, 4) {
            self.find();
        }
    }

    /// An ordinary start time, and a root that has not expired, so that the publisher's files can be accepted. The clock does
    /// not go back (A8): where it is ahead the publisher follows it, and beyond the last date only an install helps.
    fn set_things_right(&mut self) {
        if !self.publisher.follow(self.time()) {
            return self.beginning();
        }
        let is_ordinary = self.publisher.is_ordinary(self.time());
        if !is_ordinary || self.random.one_in(3) {
            let time = self.publisher.later_time(self.time(), &mut self.random);
            self.cycle(time);
        }
        let Some(held) = self.own_root() else {
            return self.beginning();
        };
        let expires = held.header.expires;
        self.publisher.set_root(held);
        if expires <= self.time() || self.publisher.is_stuck(self.script.state()) {
            let root = self.publisher.recovering_root(self.script.state(), &mut self.random);
            if root.header.version > HIGHEST_VERSION {
                return self.beginning();
            }
            self.offer_any(Plan::Root(root));
        }
    }

    /// Keys, looks, entries, images and the state.
    fn questions(&mut self) {
        for _ in 0..self.random.between(1, 3) {
            match self.random.below(6) {
                0 => self.look(),
                1 => drop(self.script.open(Call::State)),
                2 => self.image(),
                3 => self.find(),
                _ => self.ask_key(),
            }
        }
    }

    fn ask_key(&mut self) {
        let mut asked = match self.keyids.iter().nth(self.random.below(self.keyids.len() + 1)) {
            Some(keyid) => keyid.clone().into_bytes(),
            None => keyid(1).into(),
        };
        match self.random.below(10) {
            0 => asked = keyid(self.random.below(40)).into(),
            1 => asked = asked.to_ascii_uppercase(),
            2 => drop(asked.pop()),
            3 => asked.push(b'0'),
            4 => asked[self.random.below(64)] = self.random.byte(),
            _ => {}
        }
        self.script.open(Call::Key(asked));
    }

    /// Looks into a file that was offered, or into one made of it by an edit.
    fn look(&mut self) {
        let Some(file) = self.any_offered_file() else { return };
        let file = match self.random.below(4) {
            0 => super::damage::edited(file, &mut self.random),
            1 if self.random.one_in(4) => [&file[..], &vec![b' '; 32_768]].concat(),
            _ => file,
        };
        self.script.open(Call::Look(file.clone()));
        let place = self.random.below(5) as u64;
        self.script.open(Call::Entry { file, place });
    }

    fn any_offered_file(&mut self) -> Option<Vec<u8>> {
        let files: Vec<&Vec<u8>> = self
            .offered
            .iter()
            .map(|call| match call {
                Call::Install { file, .. }
                | Call::Root { file, .. }
                | Call::Timestamp { file, .. }
                | Call::Snapshot { file, .. }
                | Call::Targets { file, .. } => file,
                _ => unreachable!("only files are offered"),
            })
            .collect();
        (!files.is_empty()).then(|| files[self.random.below(files.len())].clone())
    }

    fn image(&mut self) {
        let found = (self.random.below(3) as u64, digest(b"image").to_vec());
        let mut fetched = found.clone();
        match self.random.below(5) {
            0 => fetched.0 += 1,
            1 => fetched.1[self.random.below(32)] ^= 1,
            2 => drop(fetched.1.pop()),
            _ => {}
        }
        self.script.open(Call::Image { found, fetched });
    }

    /// Looks for an image in the targets file accepted last, or in another one; now and then with a fault.
    fn find(&mut self) {
        let mut file = self.targets_file();
        let paths = paths_in(&file);
        match self.random.below(24) {
            0 => file = replaced(&file, b"\"sig\":\"00", b"\"sig\":\"01"),
            1 => file = replaced(&file, b"{\"signatures\"", b"{\"\":0,\"signatures\""),
            2 => file = replaced(&file, b"\"length\":3", b"\"length\":4"),
            3 => file = super::damage::edited(file, &mut self.random),
            4 => file = self.any_offered_file().unwrap_or_default(),
            5 if self.random.one_in(8) => file = [&file[..], &vec![b' '; 32_768]].concat(),
            6 => file = replaced(&file, b"\"spec_version\":\"1", b"\"spec_version\":\"2"),
            7 => {
                if let Some(other) = self.targets.first() {
                    file = other.clone();
                }
            }
            _ => {}
        }
        let path = self.path(&paths);
        self.script.open(Call::Find { file, path });
    }

    /// A targets file: mostly the one accepted last.
    fn targets_file(&mut self) -> Vec<u8> {
        if self.random.one_in(8) {
            let release = self.publisher.release(self.script.state(), &mut self.random);
            let [_, _, targets] = release.offers;
            return targets.file(&mut self.random);
        }
        match self.targets.len() {
            0 => self.any_offered_file().unwrap_or_default(),
            count if self.random.one_in(7) => self.targets[self.random.below(count)].clone(),
            count => self.targets[count - 1].clone(),
        }
    }

    /// A path that is listed, or one that is close to it.
    fn path(&mut self, listed: &[String]) -> Vec<u8> {
        let random = &mut self.random;
        let mut path = match listed {
            [] => b"image".to_vec(),
            _ => listed[random.below(listed.len())].clone().into_bytes(),
        };
        match random.below(16) {
            0 => path = super::names::escaped(&String::from_utf8_lossy(&path)).into_bytes(),
            1 => drop(path.pop()),
            2 => path.push(b'x'),
            3 => path = texts::string(random, 4).into_bytes(),
            4 => path = vec![b'x'; random.pick(&[0, 1, 127, 128, 129, 300])],
            5 => path.make_ascii_uppercase(),
            6 => path.push(0),
            _ => {}
        }
        path
    }
}

/// The paths in a targets file, as far as it is one.
fn paths_in(file: &[u8]) -> Vec<String> {
    match paper::forms::targets(file) {
        Ok(targets) => targets.says.targets.into_keys().collect(),
        Err(_) => Vec::new(),
    }
}

/// The bytes with a piece replaced, if it is in them.
fn replaced(bytes: &[u8], old: &[u8], new: &[u8]) -> Vec<u8> {
    match bytes.windows(old.len()).position(|window| window == old) {
        Some(place) => [&bytes[..place], new, &bytes[place + old.len()..]].concat(),
        None => bytes.to_vec(),
    }
}

#[cfg(test)]
mod tests {
    use super::History;

    #[test]
    fn the_publisher_is_heard_in_most_histories() {
        for call in ["install", "root", "timestamp", "snapshot", "targets"] {
            let is_heard = |number: &usize| {
                let cases = History::new(1, *number).played();
                let mut stated = cases.iter().filter(|case| case.is_stated());
                stated.any(|case| case.line().starts_with(&format!("{call} ")))
            };
            let heard = (0..60).filter(is_heard).count();
            assert!(heard > 30, "{call}: {heard} of 60");
        }
    }
}
