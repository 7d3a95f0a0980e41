//! Stands in for the library in the tests. It answers with paper's answers, but for one mistake.

use paper::script::Call;
use paper::state::State;

use crate::answers::{Given, Held, Said, number, paper_says};
use crate::library::{Lent, Library};

/// The mistakes. Each is of a part of an answer, or of the state, that nothing else is compared for.
pub const MISTAKES: &[&str] = &[
    "number",
    "install-number",
    "keyid-number",
    "image-number",
    "find-length",
    "find-digest",
    "find-refused-digest",
    "find-compared",
    "find-compared-if-refused",
    "find-compared-if-not-listed",
    "key",
    "key-refused",
    "look-start",
    "look-length",
    "look-entries",
    "entry-keyid",
    "entry-sig",
    "canonical-to-the-limit",
    "digest",
    "digest-of-longer-messages",
    "held-version",
    "held-version-in-32-bits",
    "version-of-what-is-not-held",
    "start-time",
    "refused-install-keeps-the-state",
    "earlier-install-refused",
    "cycle-number",
    "earlier-cycle-accepted",
    "earlier-cycle-accepted-if-nothing-is-held",
    "lowest-cycle-accepted",
    "equal-cycle-refused",
    "cycle-compared-in-32-bits",
    "cycle-compared-without-sign",
    "cycle-compared-by-difference",
    "cycle-compared-with-the-one-before-install",
    "cycle-compared-with-the-one-before-refused-install",
    "refused-cycle-sets-the-time",
    "refused-forgets-a-name",
    "refused-cycle-forgets-a-name",
    "refused-cycle-changes-the-record",
    "question-changes-the-state",
];

/// Those of the state that nothing else tells of than its bytes, and the calls that make them.
pub const MISTAKES_IN_BYTES: &[(&str, &str)] = &[
    ("refused-forgets-a-name", "snapshot"),
    ("refused-cycle-forgets-a-name", "cycle"),
    ("refused-cycle-changes-the-record", "cycle"),
    ("question-changes-the-state", "key"),
];

/// Paper with one mistake; with none if it is empty.
pub struct StandIn {
    /// The name of the mistake.
    pub mistake: &'static str,
}

/// Paper's state, and once more "the latest start time it has had" (A8), which only mistakes read.
#[derive(Clone, Debug, PartialEq, Eq)]
pub struct Kept {
    paper: State,
    latest: i64,
}

impl Library for StandIn {
    type State = Kept;

    fn blank(&self) -> Kept {
        let paper = State::blank();
        let latest = paper.time;
        Kept { paper, latest }
    }

    fn call(&self, state: &mut Kept, call: &Lent) -> Said {
        let call = owned(call);
        let before = state.clone();
        let mut said = paper_says(&mut state.paper, &call).expect("a call of the C interface");
        if let Call::Cycle(start) = call {
            said = self.cycle(&before, start, &mut state.paper, said);
        }
        state.latest = self.latest(&call, &said, &before, &state.paper);
        self.meddle_with_state(&call, &before, &said, state);
        match (self.mistake, &call, &mut said.given) {
            ("number", Call::Timestamp { .. }, _) if said.number == 12 => said.number = 11,
            ("install-number", Call::Install { .. }, _) if said.number == 10 => said.number = 9,
            ("earlier-install-refused", Call::Install { time, .. }, _) if said.number == 0 && *time < before.latest => {
                said.number = 17;
            }
            ("keyid-number", Call::Root { .. }, _) if said.number == 16 => said.number = 4,
            ("cycle-number", Call::Cycle(_), _) if said.number == 17 => said.number = 14,
            ("image-number", Call::Image { .. }, _) if said.number == 5 => said.number = 8,
            ("find-length", _, Given::Image(length, ..)) => *length &= 0x7fff_ffff,
            ("find-digest", _, Given::Image(_, digest, _)) => digest[31] = 0,
            ("find-refused-digest", _, Given::Image(_, digest, _)) if said.number == 8 => digest[0] = 1,
            ("find-compared", _, Given::Image(_, _, compared)) => *compared = (*compared).min(2),
            ("find-compared-if-refused", _, Given::Image(_, _, compared)) if said.number == 7 => *compared = 1,
            ("find-compared-if-not-listed", _, Given::Image(_, _, compared)) if said.number == 15 => *compared = 0,
            ("key", _, Given::Public(public)) => public[0] = 0,
            ("key-refused", _, Given::Public(public)) if said.number == 15 => public[7] = 9,
            ("look-start", _, Given::Part(start, ..)) => *start = (*start).max(26),
            ("look-length", _, Given::Part(_, length, _)) => *length = (*length).min(1_000),
            ("look-entries", _, Given::Part(_, _, entries)) => *entries = (*entries).min(15),
            ("entry-keyid", _, Given::Entry(keyid, _)) => keyid[31] &= 0xf0,
            ("entry-sig", _, Given::Entry(_, sig)) => sig[63] = 0,
            ("digest", _, Given::Digest(digest)) => digest[31] &= 0xfe,
            ("digest-of-longer-messages", Call::Sha256(bytes), Given::Digest(digest)) if bytes.len() % 64 > 55 => {
                *digest = [0; 32];
            }
            ("canonical-to-the-limit", Call::Text(bytes), _) if bytes.len() > 32_768 => said.number = 0,
            _ => {}
        }
        said
    }

    fn held(&self, state: &Kept) -> Held {
        let mut held = Held::of(&state.paper);
        match self.mistake {
            "held-version" => held.versions[2].1 = held.versions[2].1.min(65_535),
            "held-version-in-32-bits" => held.versions[1].1 %= 1 << 32,
            "version-of-what-is-not-held" if held.versions[3].0 == 0 => held.versions[3].1 = held.versions[2].1,
            "start-time" => held.start = held.start.max(-62_167_219_200),
            _ => {}
        }
        held
    }
}

impl StandIn {
    fn meddle_with_state(&self, call: &Call, before: &Kept, said: &Said, state: &mut Kept) {
        match (self.mistake, call) {
            ("refused-install-keeps-the-state", Call::Install { .. }) if said.number != 0 => *state = before.clone(),
            ("refused-cycle-sets-the-time", Call::Cycle(start)) if said.number == 17 => state.paper.time = *start,
            ("refused-forgets-a-name", Call::Snapshot { .. }) if said.number == 13 => forget_a_name(state),
            ("refused-cycle-forgets-a-name", Call::Cycle(_)) if said.number == 17 => forget_a_name(state),
            ("refused-cycle-changes-the-record", Call::Cycle(start)) if said.number == 17 => state.latest = *start,
            ("question-changes-the-state", Call::Key(_)) => {
                if let Some(held) = &mut state.paper.targets {
                    held.digest = "0".repeat(64);
                }
            }
            _ => {}
        }
    }

    /// The answer to a cycle that is accepted or refused by mistake, and its time; else what paper says.
    fn cycle(&self, before: &Kept, start: i64, state: &mut State, said: Said) -> Said {
        let time = before.paper.time;
        let accepted = match self.mistake {
            "earlier-cycle-accepted" => true,
            "earlier-cycle-accepted-if-nothing-is-held" => start >= time || before.paper.root.is_none(),
            "lowest-cycle-accepted" => start >= time || start == i64::MIN,
            "equal-cycle-refused" => start > time,
            "cycle-compared-in-32-bits" => start as i32 >= time as i32,
            "cycle-compared-without-sign" => start as u64 >= time as u64,
            "cycle-compared-by-difference" => start.wrapping_sub(time) >= 0,
            "cycle-compared-with-the-one-before-install" | "cycle-compared-with-the-one-before-refused-install" => {
                start >= before.latest
            }
            _ => return said,
        };
        state.time = if accepted { start } else { time };
        number(if accepted { 0 } else { 17 })
    }

    /// The latest start time after a call. "Install starts the record anew", but for a mistake.
    fn latest(&self, call: &Call, said: &Said, before: &Kept, state: &State) -> i64 {
        let is_anew = match (self.mistake, call) {
            ("cycle-compared-with-the-one-before-install", Call::Install { .. }) => said.number != 0,
            ("cycle-compared-with-the-one-before-refused-install", Call::Install { .. }) => said.number == 0,
            (_, Call::Install { .. }) => true,
            _ => false,
        };
        if is_anew {
            state.time
        } else {
            before.latest.max(state.time)
        }
    }
}

fn forget_a_name(state: &mut Kept) {
    if let Some(held) = &mut state.paper.snapshot {
        held.meta.pop_first();
    }
}

/// The call with bytes of its own.
fn owned(call: &Lent) -> Call {
    match *call {
        Lent::Text(bytes) => Call::Text(bytes.to_vec()),
        Lent::Sha256(bytes) => Call::Sha256(bytes.to_vec()),
        Lent::Look(file) => Call::Look(file.to_vec()),
        Lent::Entry { file, place } => Call::Entry {
            file: file.to_vec(),
            place,
        },
        Lent::Key(keyid) => Call::Key(keyid.to_vec()),
        Lent::Install { file, row, start } => Call::Install {
            file: file.to_vec(),
            row: row.to_vec(),
            time: start,
        },
        Lent::Cycle(start) => Call::Cycle(start),
        Lent::Root {
            file,
            held_row,
            own_row,
        } => Call::Root {
            file: file.to_vec(),
            held_row: held_row.to_vec(),
            own_row: own_row.to_vec(),
        },
        Lent::Timestamp { file, row } => Call::Timestamp {
            file: file.to_vec(),
            row: row.to_vec(),
        },
        Lent::Snapshot { file, row } => Call::Snapshot {
            file: file.to_vec(),
            row: row.to_vec(),
        },
        Lent::Targets { file, row } => Call::Targets {
            file: file.to_vec(),
            row: row.to_vec(),
        },
        Lent::Find { file, path } => Call::Find {
            file: file.to_vec(),
            path: path.to_vec(),
        },
        Lent::Image { found, fetched } => Call::Image {
            found: (found.0, found.1.to_vec()),
            fetched: (fetched.0, fetched.1.to_vec()),
        },
    }
}
