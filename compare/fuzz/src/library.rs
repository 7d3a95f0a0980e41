//! What is compared with paper: the library behind its C interface, or in the tests something that stands in for it.

use crate::answers::{Held, Said};

/// Something that answers the calls.
pub trait Library {
    /// A trusted state. Two that are equal have equal bytes.
    type State: Clone + PartialEq;

    /// The blank state.
    fn blank(&self) -> Self::State;

    /// Makes a call, and puts the state that comes back in the place of the one given.
    fn call(&self, state: &mut Self::State, call: &Lent) -> Said;

    /// The held versions.
    fn held(&self, state: &Self::State) -> Held;
}

/// A call whose bytes are lent.
#[allow(missing_docs)]
#[derive(Clone, Copy, Debug)]
pub enum Lent<'a> {
    Text(&'a [u8]),
    Sha256(&'a [u8]),
    Look(&'a [u8]),
    Entry {
        file: &'a [u8],
        place: u64,
    },
    Key(&'a [u8]),
    Install {
        file: &'a [u8],
        row: &'a [u8],
        start: i64,
    },
    Cycle(i64),
    Root {
        file: &'a [u8],
        held_row: &'a [u8],
        own_row: &'a [u8],
    },
    Timestamp {
        file: &'a [u8],
        row: &'a [u8],
    },
    Snapshot {
        file: &'a [u8],
        row: &'a [u8],
    },
    Targets {
        file: &'a [u8],
        row: &'a [u8],
    },
    Find {
        file: &'a [u8],
        path: &'a [u8],
    },
    Image {
        found: (u64, &'a [u8]),
        fetched: (u64, &'a [u8]),
    },
}
