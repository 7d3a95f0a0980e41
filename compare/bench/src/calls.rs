//! The calls that are measured, and how they are played.

use std::hint::black_box;
use std::rc::Rc;

use crate::client::{Client, Found};

/// Bytes that several calls are given.
pub type Bytes = Rc<[u8]>;

/// One call with its arguments.
#[derive(Clone, Debug)]
pub enum Call {
    /// Whether a text is canonical.
    Text(Bytes),
    /// The digest of any bytes.
    Sha256(Bytes),
    /// Install, of a root and its verdicts.
    Install(Bytes, Bytes, i64),
    /// New cycle.
    NewCycle(i64),
    /// Root, with the same verdicts under the held root's keys and under its own.
    Root(Bytes, Bytes),
    /// Timestamp, and its verdicts.
    Timestamp(Bytes, Bytes),
    /// Snapshot, and its verdicts.
    Snapshot(Bytes, Bytes),
    /// Targets, and its verdicts.
    Targets(Bytes, Bytes),
    /// Find: the targets file and a path.
    Find(Bytes, Bytes),
}

impl Call {
    /// How many bytes the text, message or file has.
    pub fn bytes(&self) -> usize {
        match self {
            Call::Text(file)
            | Call::Sha256(file)
            | Call::Install(file, ..)
            | Call::Root(file, ..)
            | Call::Timestamp(file, ..)
            | Call::Snapshot(file, ..)
            | Call::Targets(file, ..)
            | Call::Find(file, ..) => file.len(),
            Call::NewCycle(_) => 0,
        }
    }
}

/// What one call answers. The compiler knows nothing of its arguments.
pub fn play<C: Client>(state: &mut C, call: &Call) -> Found {
    match black_box(call) {
        Call::Text(text) => answer(if C::is_canonical(text) { 0 } else { 2 }),
        Call::Sha256(message) => Found {
            digest: C::sha256(message),
            ..answer(0)
        },
        Call::Install(file, row, start) => {
            let (number, installed) = C::install(file, row, *start);
            *state = installed;
            answer(number)
        }
        Call::NewCycle(start) => answer(state.new_cycle(*start)),
        Call::Root(file, row) => answer(state.root(file, row, row)),
        Call::Timestamp(file, row) => answer(state.timestamp(file, row)),
        Call::Snapshot(file, row) => answer(state.snapshot(file, row)),
        Call::Targets(file, row) => answer(state.targets(file, row)),
        Call::Find(file, path) => state.find(file, path),
    }
}

/// The answer of a call that finds nothing.
fn answer(number: u8) -> Found {
    Found {
        answer: number,
        length: 0,
        digest: [0; 32],
        compared: 0,
    }
}
