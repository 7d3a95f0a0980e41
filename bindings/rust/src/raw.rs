//! The functions of the archive as they are, and their values: include/gronwythal.h once more, for Rust. The safe calls of the crate are
//! over these. Sizes and places of fields are compared with the header's and the archive's by `bindings/check`.

use core::mem::MaybeUninit;

/// Bytes of a trusted state.
pub const STATE_SIZE: usize = 4608;

/// A trusted state. Only the archive makes one, and some of its bytes are padding.
#[derive(Clone, Copy)]
#[repr(C)]
pub struct State {
    opaque: [MaybeUninit<u64>; STATE_SIZE / 8],
}

/// What a step gives back: the answer, and the next state.
#[derive(Clone, Copy)]
#[repr(C)]
pub struct Step {
    /// The answer's number.
    pub answer: u8,
    /// The next state.
    pub state: State,
}

/// What find gives: length and digest are zeros where it is refused.
#[derive(Clone, Copy)]
#[repr(C)]
pub struct Image {
    /// The answer's number.
    pub answer: u8,
    /// Bytes of the image.
    pub length: u64,
    /// Its SHA-256.
    pub digest: [u8; 32],
    /// Listed names that the path was compared with; 0 with a refusal of 1 to 8.
    pub compared: usize,
}

/// A SHA-256 digest.
#[derive(Clone, Copy)]
#[repr(C)]
pub struct Digest {
    /// The digest.
    pub bytes: [u8; 32],
}

/// A held root's public key: zeros where it is refused.
#[derive(Clone, Copy)]
#[repr(C)]
pub struct PublicKey {
    /// The answer's number.
    pub answer: u8,
    /// The key.
    pub bytes: [u8; 32],
}

/// Where the signed part stands in a file, and the number of signature entries: zeros where it is refused.
#[derive(Clone, Copy)]
#[repr(C)]
pub struct Look {
    /// The answer's number.
    pub answer: u8,
    /// The place of the part's first byte.
    pub start: usize,
    /// The part's bytes.
    pub length: usize,
    /// The file's signature entries.
    pub entries: usize,
}

/// One signature entry, its hex undone: zeros where it is refused.
#[derive(Clone, Copy)]
#[repr(C)]
pub struct Entry {
    /// The answer's number.
    pub answer: u8,
    /// The keyid.
    pub keyid: [u8; 32],
    /// The signature.
    pub sig: [u8; 64],
}

/// A record's version, where the record is held; else 0.
#[derive(Clone, Copy)]
#[repr(C)]
pub struct Version {
    /// Whether the record is held.
    pub held: bool,
    /// Its version.
    pub number: u64,
}

/// The held versions, and the start time in force.
#[derive(Clone, Copy)]
#[repr(C)]
pub struct Versions {
    /// The root's.
    pub root: Version,
    /// The timestamp's.
    pub timestamp: Version,
    /// The snapshot's.
    pub snapshot: Version,
    /// The targets file's.
    pub targets: Version,
    /// Seconds from 1970-01-01T00:00:00Z.
    pub start: i64,
}

// Bytes are lent as a pointer, which is not null, and the number of bytes that may be read there. Nothing is written through it or kept.
#[allow(missing_docs)]
unsafe extern "C" {
    pub safe fn gronwythal_blank() -> State;
    pub fn gronwythal_install(file: *const u8, file_len: usize, row: *const u8, row_len: usize, start: i64) -> Step;
    pub safe fn gronwythal_new_cycle(state: State, start: i64) -> Step;
    pub fn gronwythal_root(
        state: State,
        file: *const u8,
        file_len: usize,
        held_row: *const u8,
        held_row_len: usize,
        own_row: *const u8,
        own_row_len: usize,
    ) -> Step;
    pub fn gronwythal_timestamp(state: State, file: *const u8, file_len: usize, row: *const u8, row_len: usize)
    -> Step;
    pub fn gronwythal_snapshot(state: State, file: *const u8, file_len: usize, row: *const u8, row_len: usize) -> Step;
    pub fn gronwythal_targets(state: State, file: *const u8, file_len: usize, row: *const u8, row_len: usize) -> Step;
    pub fn gronwythal_find(state: State, file: *const u8, file_len: usize, path: *const u8, path_len: usize) -> Image;
    pub fn gronwythal_key(state: State, keyid: *const u8, keyid_len: usize) -> PublicKey;
    pub safe fn gronwythal_versions(state: State) -> Versions;
    pub fn gronwythal_sha256(bytes: *const u8, bytes_len: usize) -> Digest;
    pub fn gronwythal_check_image(
        listed: u64,
        digest: *const u8,
        digest_len: usize,
        fetched: u64,
        hash: *const u8,
        hash_len: usize,
    ) -> u8;
    pub fn gronwythal_look(file: *const u8, file_len: usize) -> Look;
    pub fn gronwythal_entry(file: *const u8, file_len: usize, place: usize) -> Entry;
    pub fn gronwythal_is_canonical(text: *const u8, text_len: usize) -> bool;
}
