//! The library behind its C interface: `include/gronwythal.h`, said once more in Rust.
#![allow(unsafe_code)]

use fuzz::answers::{Given, Held, Said, number};
use fuzz::library::{Lent, Library};

/// `GW_STATE_SIZE`
const STATE_SIZE: usize = 4608;

/// `gw_state`
#[repr(C)]
#[derive(Clone, PartialEq)]
pub struct State {
    opaque: [u64; STATE_SIZE / 8],
}

#[repr(C)]
struct Step {
    answer: u8,
    state: State,
}

#[repr(C)]
struct Image {
    answer: u8,
    length: u64,
    digest: [u8; 32],
    compared: usize,
}

#[repr(C)]
struct Digest {
    bytes: [u8; 32],
}

#[repr(C)]
struct PublicKey {
    answer: u8,
    bytes: [u8; 32],
}

#[repr(C)]
struct Look {
    answer: u8,
    start: usize,
    length: usize,
    entries: usize,
}

#[repr(C)]
struct Entry {
    answer: u8,
    keyid: [u8; 32],
    sig: [u8; 64],
}

/// `gw_version`; what C has as a `bool` is a byte here, so that another value than 0 and 1 would be seen.
#[repr(C)]
struct Version {
    held: u8,
    number: u64,
}

#[repr(C)]
struct Versions {
    root: Version,
    timestamp: Version,
    snapshot: Version,
    targets: Version,
    start: i64,
}

unsafe extern "C" {
    fn gronwythal_blank() -> State;
    fn gronwythal_install(file: *const u8, file_len: usize, row: *const u8, row_len: usize, start: i64) -> Step;
    fn gronwythal_new_cycle(state: State, start: i64) -> Step;
    fn gronwythal_root(
        state: State,
        file: *const u8,
        file_len: usize,
        held_row: *const u8,
        held_row_len: usize,
        own_row: *const u8,
        own_row_len: usize,
    ) -> Step;
    fn gronwythal_timestamp(state: State, file: *const u8, file_len: usize, row: *const u8, row_len: usize) -> Step;
    fn gronwythal_snapshot(state: State, file: *const u8, file_len: usize, row: *const u8, row_len: usize) -> Step;
    fn gronwythal_targets(state: State, file: *const u8, file_len: usize, row: *const u8, row_len: usize) -> Step;
    fn gronwythal_find(state: State, file: *const u8, file_len: usize, path: *const u8, path_len: usize) -> Image;
    fn gronwythal_key(state: State, keyid: *const u8, keyid_len: usize) -> PublicKey;
    fn gronwythal_versions(state: State) -> Versions;
    fn gronwythal_check_image(
        listed: u64,
        digest: *const u8,
        digest_len: usize,
        fetched: u64,
        hash: *const u8,
        hash_len: usize,
    ) -> u8;
    fn gronwythal_look(file: *const u8, file_len: usize) -> Look;
    fn gronwythal_entry(file: *const u8, file_len: usize, place: usize) -> Entry;
    fn gronwythal_is_canonical(text: *const u8, text_len: usize) -> u8;
    fn gronwythal_sha256(bytes: *const u8, bytes_len: usize) -> Digest;
}

/// The archive that the program is linked with.
pub struct Archive;

impl Library for Archive {
    type State = State;

    fn blank(&self) -> State {
        // SAFETY: as the header declares it.
        unsafe { gronwythal_blank() }
    }

    fn call(&self, state: &mut State, call: &Lent) -> Said {
        let given = state.clone();
        // SAFETY: as the header declares them; the bytes are lent for the time of the call, and no pointer is null.
        let step = unsafe {
            match *call {
                Lent::Install { file, row, start } => {
                    gronwythal_install(file.as_ptr(), file.len(), row.as_ptr(), row.len(), start)
                }
                Lent::Cycle(start) => gronwythal_new_cycle(given, start),
                Lent::Root {
                    file,
                    held_row,
                    own_row,
                } => gronwythal_root(
                    given,
                    file.as_ptr(),
                    file.len(),
                    held_row.as_ptr(),
                    held_row.len(),
                    own_row.as_ptr(),
                    own_row.len(),
                ),
                Lent::Timestamp { file, row } => {
                    gronwythal_timestamp(given, file.as_ptr(), file.len(), row.as_ptr(), row.len())
                }
                Lent::Snapshot { file, row } => {
                    gronwythal_snapshot(given, file.as_ptr(), file.len(), row.as_ptr(), row.len())
                }
                Lent::Targets { file, row } => {
                    gronwythal_targets(given, file.as_ptr(), file.len(), row.as_ptr(), row.len())
                }
                _ => return question(given, call),
            }
        };
        *state = step.state;
        number(step.answer)
    }

    fn held(&self, state: &State) -> Held {
        // SAFETY: as the header declares it.
        let held = unsafe { gronwythal_versions(state.clone()) };
        let versions = [held.root, held.timestamp, held.snapshot, held.targets];
        Held {
            versions: versions.map(|version| (version.held, version.number)),
            start: held.start,
        }
    }
}

/// A call that gives back no state.
fn question(state: State, call: &Lent) -> Said {
    // SAFETY: as the header declares them; the bytes are lent for the time of the call, and no pointer is null.
    unsafe {
        match *call {
            Lent::Find { file, path } => {
                let image = gronwythal_find(state, file.as_ptr(), file.len(), path.as_ptr(), path.len());
                Said {
                    number: image.answer,
                    given: Given::Image(image.length, image.digest, image.compared as u64),
                }
            }
            Lent::Key(keyid) => {
                let key = gronwythal_key(state, keyid.as_ptr(), keyid.len());
                Said {
                    number: key.answer,
                    given: Given::Public(key.bytes),
                }
            }
            Lent::Image { found, fetched } => number(gronwythal_check_image(
                found.0,
                found.1.as_ptr(),
                found.1.len(),
                fetched.0,
                fetched.1.as_ptr(),
                fetched.1.len(),
            )),
            Lent::Look(file) => {
                let look = gronwythal_look(file.as_ptr(), file.len());
                Said {
                    number: look.answer,
                    given: Given::Part(look.start as u64, look.length as u64, look.entries as u64),
                }
            }
            Lent::Entry { file, place } => {
                let entry = gronwythal_entry(file.as_ptr(), file.len(), place as usize);
                Said {
                    number: entry.answer,
                    given: Given::Entry(entry.keyid, entry.sig),
                }
            }
            Lent::Text(bytes) => number(gronwythal_is_canonical(bytes.as_ptr(), bytes.len())),
            Lent::Sha256(bytes) => Said {
                number: 0,
                given: Given::Digest(gronwythal_sha256(bytes.as_ptr(), bytes.len()).bytes),
            },
            _ => unreachable!("a step"),
        }
    }
}
