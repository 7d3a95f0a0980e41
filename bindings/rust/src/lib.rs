//! Gronwythal: which file on an untrusted shared store to believe, by The Update Framework (TUF).
//!
//! The calls are those of the archive `libgronwythal.a`, which is proved to answer as document 01 says; this crate only lends it slices and
//! gives its answers Rust's types. Nothing is allocated and nothing is global. Every byte string, verdict row, digest and clock is
//! answered: nothing has to be checked before a call, and a refusal leaves the state as it was. A call takes at most 48 KiB of stack.
//!
//! The caller checks signatures. A *verdict row* has one byte for each signature entry of the file, in file order: 1 if its signature
//! verifies over the [signed part](signed_part) under the key of its keyid, else 0, also where no such key is known. Digests are SHA-256.
//! Those of metadata files are computed inside; that of a fetched image is an argument, and [`sha256`] computes it. `examples/rust` is a
//! whole controller.
//!
//! ```
//! use gronwythal::{Refusal, State};
//!
//! let file = br#"{"signatures":[],"signed":{}}"#;
//! assert_eq!(gronwythal::signed_part(file), Ok(&b"{}"[..]));
//! assert_eq!(gronwythal::look(file).unwrap().start, 26);
//!
//! let mut state = State::blank();
//! assert_eq!(state.timestamp(file, &[]), Err(Refusal::BadForm));
//! ```
#![no_std]

pub mod raw;
mod refusal;

use core::fmt;

pub use refusal::Refusal;
use refusal::answered;

/// Bytes of a keyid, a public key or a digest.
pub const ID_SIZE: usize = 32;

/// Bytes of a signature.
pub const SIGNATURE_SIZE: usize = 64;

/// Signature entries of a file at most, and so verdicts of a row.
pub const MAX_ENTRIES: usize = 16;

/// Bytes of a file of metadata at most.
pub const MAX_FILE: usize = 32768;

// ---- The state and its steps

/// The trusted state: which root, timestamp, snapshot and targets file are held, and the start time in force.
///
/// A value of 4,608 bytes. It is not `Copy`, so that a history goes on from one state alone unless it is cloned on purpose.
#[derive(Clone)]
pub struct State(raw::State);

/// The blank state.
impl Default for State {
    fn default() -> State {
        State::blank()
    }
}

/// Shows what [`State::versions`] tells.
impl fmt::Debug for State {
    fn fmt(&self, f: &mut fmt::Formatter<'_>) -> fmt::Result {
        f.debug_tuple("State").field(&self.versions()).finish()
    }
}

impl State {
    /// The blank state: it holds no record, and its start time is `i64::MIN`. Every step but a new cycle is refused on it.
    pub fn blank() -> State {
        State(raw::gronwythal_blank())
    }

    /// The root from the factory, judged by its own root role (refusals 1 to 5, 10, 16), and the first start time. `row` has the verdicts
    /// under the keys that the file itself lists. Expiry does not matter here.
    ///
    /// An install is given no state and begins a new history. After a refused one, document 01's state is the blank one, and so
    /// `State::install(file, row, start).unwrap_or_default()` is the state after an install whatever its answer.
    pub fn install(file: &[u8], row: &[u8], start: i64) -> Result<State, Refusal> {
        // SAFETY: slices are lent.
        let step = unsafe { raw::gronwythal_install(file.as_ptr(), file.len(), row.as_ptr(), row.len(), start) };
        answered(step.answer).map(|()| State(step.state))
    }

    /// A new update cycle (17), which sets the start time by which expiry is judged from here on, in seconds from 1970-01-01T00:00:00Z.
    ///
    /// A time earlier than the start time in force is refused, so that nothing that has expired is found fresh by a clock that went back.
    /// The same time passes, and on the blank state, whose time is the lowest, any. After a refusal the calls go on by the start time in
    /// force. A clock that ran far ahead is not taken back by a cycle either: only an [install](State::install), which begins a new
    /// history, sets an earlier time.
    ///
    /// ```
    /// use gronwythal::{Refusal, State};
    ///
    /// let mut state = State::blank();
    /// assert_eq!(state.new_cycle(1772431200), Ok(()));
    /// assert_eq!(state.new_cycle(946684800), Err(Refusal::EarlierStart));
    /// assert_eq!(state.versions().start, 1772431200);
    /// ```
    pub fn new_cycle(&mut self, start: i64) -> Result<(), Refusal> {
        self.kept(raw::gronwythal_new_cycle(self.0, start))
    }

    /// The next root (1 to 6, 9, 10, 11, 16), whose version is the held one plus one: the verdicts under the held root's keys, and those
    /// under the keys that the file itself lists.
    ///
    /// A root that changes the set of keys or the threshold of timestamp or snapshot drops those records and targets; one that changes
    /// those of targets alone drops targets.
    pub fn root(&mut self, file: &[u8], held_row: &[u8], own_row: &[u8]) -> Result<(), Refusal> {
        // SAFETY: slices are lent.
        let step = unsafe {
            raw::gronwythal_root(
                self.0,
                file.as_ptr(),
                file.len(),
                held_row.as_ptr(),
                held_row.len(),
                own_row.as_ptr(),
                own_row.len(),
            )
        };
        self.kept(step)
    }

    /// A timestamp (1 to 7, 9, 11 to 14). [`Refusal::NoNews`] is the normal answer to the one that is held.
    pub fn timestamp(&mut self, file: &[u8], row: &[u8]) -> Result<(), Refusal> {
        // SAFETY: slices are lent.
        let step = unsafe { raw::gronwythal_timestamp(self.0, file.as_ptr(), file.len(), row.as_ptr(), row.len()) };
        self.kept(step)
    }

    /// The snapshot that the held timestamp lists (1 to 9, 11, 13, 14).
    pub fn snapshot(&mut self, file: &[u8], row: &[u8]) -> Result<(), Refusal> {
        // SAFETY: slices are lent.
        let step = unsafe { raw::gronwythal_snapshot(self.0, file.as_ptr(), file.len(), row.as_ptr(), row.len()) };
        self.kept(step)
    }

    /// The targets file that the held snapshot lists (1 to 9, 11, 14). Keep the file: [`State::find`] asks for it.
    pub fn targets(&mut self, file: &[u8], row: &[u8]) -> Result<(), Refusal> {
        // SAFETY: slices are lent.
        let step = unsafe { raw::gronwythal_targets(self.0, file.as_ptr(), file.len(), row.as_ptr(), row.len()) };
        self.kept(step)
    }

    /// The length and digest of the image of that path (1 to 4, 6 to 8, 15). The file is the targets file that was accepted; another is
    /// refused, by its digest. The path is the name in that file with its escapes undone.
    pub fn find(&self, file: &[u8], path: &[u8]) -> Result<Image, Refusal> {
        self.find_counted(file, path).0
    }

    /// What [`State::find`] gives, and how many listed names the path was compared with.
    ///
    /// These are the names smaller than the path, byte by byte and a shorter prefix first, and one more where one is left: names rise, so
    /// the search ends at the first that is not smaller. [`Refusal::NotListed`] comes with the number too; with any other refusal it is 0.
    pub fn find_counted(&self, file: &[u8], path: &[u8]) -> (Result<Image, Refusal>, usize) {
        // SAFETY: slices are lent.
        let found = unsafe { raw::gronwythal_find(self.0, file.as_ptr(), file.len(), path.as_ptr(), path.len()) };
        let image = answered(found.answer).map(|()| Image {
            length: found.length,
            digest: found.digest,
        });
        (image, found.compared)
    }

    /// The held root's public key of a keyid (6, 15), given as files write it: 64 lower-case hex digits. [`Entry::keyid_hex`] gives them.
    pub fn key(&self, keyid: &[u8]) -> Result<[u8; ID_SIZE], Refusal> {
        // SAFETY: a slice is lent.
        let key = unsafe { raw::gronwythal_key(self.0, keyid.as_ptr(), keyid.len()) };
        answered(key.answer).map(|()| key.bytes)
    }

    /// The held versions, and the start time in force.
    pub fn versions(&self) -> Versions {
        let told = raw::gronwythal_versions(self.0);
        Versions {
            root: version(told.root),
            timestamp: version(told.timestamp),
            snapshot: version(told.snapshot),
            targets: version(told.targets),
            start: told.start,
        }
    }

    /// A step gives back the next state; a refused one, the state that it was given.
    fn kept(&mut self, step: raw::Step) -> Result<(), Refusal> {
        self.0 = step.state;
        answered(step.answer)
    }
}

fn version(told: raw::Version) -> Option<u64> {
    told.held.then_some(told.number)
}

/// What a state holds: each record's version, 1 to 9,007,199,254,740,991, and the start time in force, in seconds from
/// 1970-01-01T00:00:00Z: the latest one that the state has had.
#[derive(Clone, Copy, Debug, PartialEq, Eq)]
pub struct Versions {
    /// The root's version, if one is held.
    pub root: Option<u64>,
    /// The timestamp's.
    pub timestamp: Option<u64>,
    /// The snapshot's.
    pub snapshot: Option<u64>,
    /// The targets file's.
    pub targets: Option<u64>,
    /// The start time.
    pub start: i64,
}

// ---- Images

/// What is listed of an image.
#[derive(Clone, Copy, Debug, PartialEq, Eq)]
pub struct Image {
    /// Its bytes.
    pub length: u64,
    /// Its SHA-256.
    pub digest: [u8; ID_SIZE],
}

impl Image {
    /// Whether a fetched image of that length and digest is the listed one (5, 8). [`sha256`] computes the digest.
    pub fn check(&self, fetched: u64, digest: &[u8]) -> Result<(), Refusal> {
        check_image(self.length, &self.digest, fetched, digest)
    }
}

/// SHA-256 of the bytes: a fetched image's digest, for [`Image::check`].
///
/// They are lent in one piece; a controller that fetches an image in several needs a SHA-256 of its own.
pub fn sha256(bytes: &[u8]) -> [u8; ID_SIZE] {
    // SAFETY: a slice is lent.
    unsafe { raw::gronwythal_sha256(bytes.as_ptr(), bytes.len()) }.bytes
}

/// A fetched image against what is listed (5, 8): the listed length and digest, then the fetched ones. [`Image::check`] is the same of an
/// [`Image`].
pub fn check_image(listed: u64, digest: &[u8], fetched: u64, hash: &[u8]) -> Result<(), Refusal> {
    // SAFETY: slices are lent.
    answered(unsafe {
        raw::gronwythal_check_image(
            listed,
            digest.as_ptr(),
            digest.len(),
            fetched,
            hash.as_ptr(),
            hash.len(),
        )
    })
}

// ---- Looking into a file: what checking signatures needs

/// Where the signed part stands in a file, and the number of its signature entries.
#[derive(Clone, Copy, Debug, PartialEq, Eq)]
pub struct Look {
    /// The place of the part's first byte.
    pub start: usize,
    /// The part's bytes.
    pub length: usize,
    /// The file's signature entries, at most [`MAX_ENTRIES`].
    pub entries: usize,
}

/// Looks into a file of any role (1 to 3).
pub fn look(file: &[u8]) -> Result<Look, Refusal> {
    // SAFETY: a slice is lent.
    let look = unsafe { raw::gronwythal_look(file.as_ptr(), file.len()) };
    answered(look.answer).map(|()| Look {
        start: look.start,
        length: look.length,
        entries: look.entries,
    })
}

/// The bytes that signatures are over (1 to 3): a part of the caller's own, not a copy.
pub fn signed_part(file: &[u8]) -> Result<&[u8], Refusal> {
    look(file).map(|look| &file[look.start..][..look.length])
}

/// One signature entry, its hex undone.
#[derive(Clone, Copy, Debug, PartialEq, Eq)]
pub struct Entry {
    /// The keyid.
    pub keyid: [u8; ID_SIZE],
    /// The signature.
    pub sig: [u8; SIGNATURE_SIZE],
}

impl Entry {
    /// The keyid as files write it, and [`State::key`] takes it.
    pub fn keyid_hex(&self) -> [u8; 2 * ID_SIZE] {
        const DIGITS: &[u8; 16] = b"0123456789abcdef";
        let mut hex = [0; 2 * ID_SIZE];
        for (pair, byte) in hex.chunks_exact_mut(2).zip(self.keyid) {
            pair[0] = DIGITS[usize::from(byte >> 4)];
            pair[1] = DIGITS[usize::from(byte & 15)];
        }
        hex
    }
}

/// The signature entry at that place, counted from 0 (1 to 3, 15).
pub fn entry(file: &[u8], place: usize) -> Result<Entry, Refusal> {
    // SAFETY: a slice is lent.
    let read = unsafe { raw::gronwythal_entry(file.as_ptr(), file.len(), place) };
    answered(read.answer).map(|()| Entry {
        keyid: read.keyid,
        sig: read.sig,
    })
}

// ---- Text alone

/// Whether the bytes are canonical JSON text, of any length.
pub fn is_canonical(text: &[u8]) -> bool {
    // SAFETY: a slice is lent.
    unsafe { raw::gronwythal_is_canonical(text.as_ptr(), text.len()) }
}
