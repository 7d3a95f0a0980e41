//! What a call through the C interface says, and what paper says to the same call.

use std::fmt;

use paper::envelope;
use paper::refusal::{Refusal, number_of};
use paper::script::Call;
use paper::state::{self, Found, State};
use paper::{hex, json, sha256};

/// A record's version: whether it is held, as a byte, and the number.
pub type Version = (u8, u64);

/// The held versions of root, timestamp, snapshot and targets, and the start time in force.
#[derive(Clone, Copy, Debug, PartialEq, Eq)]
pub struct Held {
    /// "where the record is held; else 0"
    pub versions: [Version; 4],
    /// The start time.
    pub start: i64,
}

impl Held {
    /// What paper holds.
    pub fn of(state: &State) -> Held {
        let version = |held: Option<u64>| (u8::from(held.is_some()), held.unwrap_or(0));
        Held {
            versions: [
                version(state.root.as_ref().map(|held| held.header.version)),
                version(state.timestamp.as_ref().map(|held| held.header.version)),
                version(state.snapshot.as_ref().map(|held| held.header.version)),
                version(state.targets.as_ref().map(|held| held.header.version)),
            ],
            start: state.time,
        }
    }
}

/// What a call gives back besides the number and the state.
#[derive(Clone, Copy, Debug, PartialEq, Eq)]
pub enum Given {
    /// Nothing: a step, or the comparison of an image. `is_canonical` has its truth in the number.
    Nothing,
    /// Of find: length and digest, and how many names were compared.
    Image(u64, [u8; 32], u64),
    /// Of key: the public key.
    Public([u8; 32]),
    /// Of sha256, which has no number: the digest.
    Digest([u8; 32]),
    /// Of look: start and length of the signed part, and the number of entries.
    Part(u64, u64, u64),
    /// Of entry: keyid and signature.
    Entry([u8; 32], [u8; 64]),
}

/// An answer.
#[derive(Clone, Copy, Debug, PartialEq, Eq)]
pub struct Said {
    /// Document 01's number; of `is_canonical` 1 or 0, of `sha256` always 0.
    pub number: u8,
    /// What comes with it.
    pub given: Given,
}

impl fmt::Display for Said {
    fn fmt(&self, out: &mut fmt::Formatter<'_>) -> fmt::Result {
        write!(out, "{}", self.number)?;
        match self.given {
            Given::Nothing => Ok(()),
            Given::Image(length, digest, compared) => {
                let digest = hex::written(&digest);
                write!(out, ", {length} bytes, {digest}, {compared} names compared")
            }
            Given::Public(bytes) | Given::Digest(bytes) => write!(out, ", {}", hex::written(&bytes)),
            Given::Part(start, length, entries) => {
                write!(out, ", {length} bytes from place {start}, {entries} entries")
            }
            Given::Entry(keyid, sig) => write!(out, ", {}, {}", hex::written(&keyid), hex::written(&sig)),
        }
    }
}

/// A number and nothing else.
pub fn number(number: u8) -> Said {
    let given = Given::Nothing;
    Said { number, given }
}

/// What paper says to a call, and the state after it. `None` for a call that the C interface does not have.
pub fn paper_says(state: &mut State, call: &Call) -> Option<Said> {
    let said = match call {
        Call::Text(bytes) => number(u8::from(json::parse(bytes).is_ok())),
        Call::Look(file) => look(file),
        Call::Entry { file, place } => entry(file, *place),
        Call::Key(keyid) => key(state, keyid),
        Call::Install { file, row, time } => {
            let result = State::install(file, row, *time);
            let said = number(number_of(&result));
            // "a refused one returns the blank state"
            *state = result.unwrap_or_default();
            said
        }
        Call::Cycle(time) => step(state.cycle(*time)),
        Call::Root {
            file,
            held_row,
            own_row,
        } => step(state.root(file, held_row, own_row)),
        Call::Timestamp { file, row } => step(state.timestamp(file, row)),
        Call::Snapshot { file, row } => step(state.snapshot(file, row)),
        Call::Targets { file, row } => step(state.targets(file, row)),
        Call::Find { file, path } => find(state, file, path),
        Call::Image { found, fetched } => step(state::image((found.0, &found.1), (fetched.0, &fetched.1))),
        Call::Sha256(bytes) => Said {
            number: 0,
            given: Given::Digest(sha256::digest(bytes)),
        },
        Call::Date(_) | Call::State => return None,
    };
    Some(said)
}

fn step(result: Result<(), Refusal>) -> Said {
    number(number_of(&result))
}

fn find(state: &State, file: &[u8], path: &[u8]) -> Said {
    let Found { image, compared } = state.find(file, path);
    let number = number_of(&image);
    let (length, digest) = image.map_or((0, [0; 32]), |target| (target.length, undone(&target.sha256)));
    let given = Given::Image(length, digest, compared as u64);
    Said { number, given }
}

fn key(state: &State, keyid: &[u8]) -> Said {
    let result = state.key(keyid);
    Said {
        number: number_of(&result),
        given: Given::Public(result.map_or([0; 32], undone)),
    }
}

fn look(file: &[u8]) -> Said {
    let result = envelope::look(file);
    let number = number_of(&result);
    let given = match result {
        Ok((start, part, entries)) => Given::Part(start as u64, part.len() as u64, entries as u64),
        Err(_) => Given::Part(0, 0, 0),
    };
    Said { number, given }
}

fn entry(file: &[u8], place: u64) -> Said {
    let result = envelope::entry(file, place);
    let number = number_of(&result);
    let given = match result {
        Ok(entry) => Given::Entry(undone(&entry.keyid), undone(&entry.sig)),
        Err(_) => Given::Entry([0; 32], [0; 64]),
    };
    Said { number, given }
}

/// "the hex undone"
fn undone<const N: usize>(text: &str) -> [u8; N] {
    let bytes = hex::bytes(text).expect("paper gives hex");
    bytes.try_into().expect("paper gives so many digits")
}
