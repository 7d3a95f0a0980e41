//! The library: include/gronwythal.h, declared and wrapped.

// The functions of the archive are safe for any arguments (they are proved so); what has to be believed here is that the
// declarations are those of the header.
#![allow(unsafe_code)]

use crate::client::{Client, Found, Versions};

/// GW_STATE_SIZE / 8
const STATE_WORDS: usize = 576;

/// `gw_state`
#[repr(C)]
#[derive(Clone)]
pub struct State {
    opaque: [u64; STATE_WORDS],
}

/// `gw_step`
#[repr(C)]
struct Step {
    answer: u8,
    state: State,
}

/// `gw_image`
#[repr(C)]
struct Image {
    answer: u8,
    length: u64,
    digest: [u8; 32],
    compared: usize,
}

/// `gw_digest`
#[repr(C)]
struct Digest {
    bytes: [u8; 32],
}

/// `gw_version`
#[repr(C)]
struct HeldVersion {
    held: bool,
    number: u64,
}

/// `gw_versions`
#[repr(C)]
struct HeldVersions {
    root: HeldVersion,
    timestamp: HeldVersion,
    snapshot: HeldVersion,
    targets: HeldVersion,
    start: i64,
}

unsafe extern "C" {
    fn gronwythal_blank() -> State;
    fn gronwythal_install(file: *const u8, file_len: usize, row: *const u8, row_len: usize, start: i64) -> Step;
    fn gronwythal_new_cycle(state: State, start: i64) -> Step;
    fn gronwythal_root(
        state: State,
        file: *const u8,
        file_len: usize,
        held_row: *const u8,
        held_row_len: usize,
        own_row: *const u8,
        own_row_len: usize,
    ) -> Step;
    fn gronwythal_timestamp(state: State, file: *const u8, file_len: usize, row: *const u8, row_len: usize) -> Step;
    fn gronwythal_snapshot(state: State, file: *const u8, file_len: usize, row: *const u8, row_len: usize) -> Step;
    fn gronwythal_targets(state: State, file: *const u8, file_len: usize, row: *const u8, row_len: usize) -> Step;
    fn gronwythal_find(state: State, file: *const u8, file_len: usize, path: *const u8, path_len: usize) -> Image;
    fn gronwythal_versions(state: State) -> HeldVersions;
    fn gronwythal_is_canonical(text: *const u8, text_len: usize) -> bool;
    fn gronwythal_sha256(bytes: *const u8, bytes_len: usize) -> Digest;
}

impl State {
    /// As the header's `gw_*` do: the state that came back is stored.
    fn store(&mut self, step: Step) -> u8 {
        *self = step.state;
        step.answer
    }
}

impl Client for State {
    fn blank() -> State {
        unsafe { gronwythal_blank() }
    }

    fn is_canonical(text: &[u8]) -> bool {
        unsafe { gronwythal_is_canonical(text.as_ptr(), text.len()) }
    }

    fn sha256(message: &[u8]) -> [u8; 32] {
        unsafe { gronwythal_sha256(message.as_ptr(), message.len()) }.bytes
    }

    fn install(file: &[u8], row: &[u8], start: i64) -> (u8, State) {
        let step = unsafe { gronwythal_install(file.as_ptr(), file.len(), row.as_ptr(), row.len(), start) };
        (step.answer, step.state)
    }

    fn new_cycle(&mut self, start: i64) -> u8 {
        let step = unsafe { gronwythal_new_cycle(self.clone(), start) };
        self.store(step)
    }

    fn root(&mut self, file: &[u8], held_row: &[u8], own_row: &[u8]) -> u8 {
        let step = unsafe {
            gronwythal_root(
                self.clone(),
                file.as_ptr(),
                file.len(),
                held_row.as_ptr(),
                held_row.len(),
                own_row.as_ptr(),
                own_row.len(),
            )
        };
        self.store(step)
    }

    fn timestamp(&mut self, file: &[u8], row: &[u8]) -> u8 {
        let step = unsafe { gronwythal_timestamp(self.clone(), file.as_ptr(), file.len(), row.as_ptr(), row.len()) };
        self.store(step)
    }

    fn snapshot(&mut self, file: &[u8], row: &[u8]) -> u8 {
        let step = unsafe { gronwythal_snapshot(self.clone(), file.as_ptr(), file.len(), row.as_ptr(), row.len()) };
        self.store(step)
    }

    fn targets(&mut self, file: &[u8], row: &[u8]) -> u8 {
        let step = unsafe { gronwythal_targets(self.clone(), file.as_ptr(), file.len(), row.as_ptr(), row.len()) };
        self.store(step)
    }

    fn find(&self, file: &[u8], path: &[u8]) -> Found {
        let image = unsafe { gronwythal_find(self.clone(), file.as_ptr(), file.len(), path.as_ptr(), path.len()) };
        Found {
            answer: image.answer,
            length: image.length,
            digest: image.digest,
            compared: image.compared,
        }
    }

    fn versions(&self) -> Versions {
        let held = unsafe { gronwythal_versions(self.clone()) };
        let version = |version: HeldVersion| version.held.then_some(version.number);
        Versions {
            held: [held.root, held.timestamp, held.snapshot, held.targets].map(version),
            start: held.start,
        }
    }
}

#[cfg(test)]
mod tests {
    use super::{Image, State};

    /// The number that stands in the header behind these words.
    fn size_behind(words: &str) -> usize {
        let header = include_str!("../../../include/gronwythal.h");
        let (_, behind) = header.split_once(words).expect("the header has the words");
        let digits = behind.split(|byte: char| !byte.is_ascii_digit()).next();
        digits.and_then(|digits| digits.parse().ok()).expect("a number")
    }

    #[test]
    fn states_and_images_are_as_large_as_the_header_says() {
        assert_eq!(size_of::<State>(), size_behind("#define GW_STATE_SIZE "));
        assert_eq!(size_of::<Image>(), size_behind("GW_SIZE_IS_(gw_image, "));
    }
}
