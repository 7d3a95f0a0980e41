//! Memory to lend from: whatever is lent ends right before a page without access, or begins right behind one, and cannot be
//! written while it is lent.
#![allow(unsafe_code)]

use std::ffi::{c_int, c_void};
use std::{io, ptr, slice};

use paper::script::Call;

use crate::library::Lent;

const PAGE: usize = 4096;

/// The longest argument that can be lent.
pub const ROOM: usize = 64 * PAGE;

const NO_ACCESS: c_int = 0;
const READ: c_int = 1;
const READ_AND_WRITE: c_int = 3;
const PRIVATE_AND_ANONYMOUS: c_int = 0x22;

unsafe extern "C" {
    fn mmap(address: *mut c_void, length: usize, access: c_int, flags: c_int, file: c_int, offset: i64) -> *mut c_void;
    fn mprotect(address: *mut c_void, length: usize, access: c_int) -> c_int;
    fn munmap(address: *mut c_void, length: usize) -> c_int;
}

/// Which end of the room the bytes stand at.
#[derive(Clone, Copy, Debug, PartialEq, Eq)]
pub enum Side {
    /// A page without access stands right before them.
    Start,
    /// A page without access stands right behind them.
    End,
}

/// Room for one argument between two pages without access.
struct Guarded {
    start: *mut u8,
}

impl Guarded {
    fn new() -> io::Result<Guarded> {
        // SAFETY: new memory is asked for, at any address.
        let address = unsafe {
            mmap(
                ptr::null_mut(),
                ROOM + 2 * PAGE,
                NO_ACCESS,
                PRIVATE_AND_ANONYMOUS,
                -1,
                0,
            )
        };
        if address.addr() == usize::MAX {
            return Err(io::Error::last_os_error());
        }
        let start = address.cast::<u8>().wrapping_add(PAGE);
        Ok(Guarded { start })
    }

    /// Changes the access to the room.
    fn allow(&mut self, access: c_int) {
        // SAFETY: the room is whole pages, all of this value's own.
        let status = unsafe { mprotect(self.start.cast(), ROOM, access) };
        assert_eq!(status, 0, "{}", io::Error::last_os_error());
    }

    /// Puts the bytes there, to be read only.
    fn lend(&mut self, bytes: &[u8], side: Side) -> &[u8] {
        assert!(bytes.len() <= ROOM, "{} bytes are more than can be lent", bytes.len());
        self.allow(READ_AND_WRITE);
        let place = match side {
            Side::Start => self.start,
            Side::End => self.start.wrapping_add(ROOM - bytes.len()),
        };
        // SAFETY: that many bytes are in the room from this place on; nothing else refers to them, and they stay as they
        // are for as long as the slice lives.
        let lent = unsafe {
            ptr::copy_nonoverlapping(bytes.as_ptr(), place, bytes.len());
            slice::from_raw_parts(place, bytes.len())
        };
        self.allow(READ);
        lent
    }
}

impl Drop for Guarded {
    fn drop(&mut self) {
        // SAFETY: all of this is this value's own, and nothing refers to it any more.
        unsafe { munmap(self.start.wrapping_sub(PAGE).cast(), ROOM + 2 * PAGE) };
    }
}

/// Room for the arguments of one call.
pub struct Memory {
    rooms: [Guarded; 3],
}

impl Memory {
    /// An error if the system gives no memory.
    pub fn new() -> io::Result<Memory> {
        Ok(Memory {
            rooms: [Guarded::new()?, Guarded::new()?, Guarded::new()?],
        })
    }

    /// Lends the arguments of a call. `None` for a call that the C interface does not have.
    pub fn lend(&mut self, call: &Call, side: Side) -> Option<Lent<'_>> {
        let [one, two, three] = &mut self.rooms;
        let lent = match call {
            Call::Text(bytes) => Lent::Text(one.lend(bytes, side)),
            Call::Sha256(bytes) => Lent::Sha256(one.lend(bytes, side)),
            Call::Look(file) => Lent::Look(one.lend(file, side)),
            Call::Entry { file, place } => Lent::Entry {
                file: one.lend(file, side),
                place: *place,
            },
            Call::Key(keyid) => Lent::Key(one.lend(keyid, side)),
            Call::Install { file, row, time } => Lent::Install {
                file: one.lend(file, side),
                row: two.lend(row, side),
                start: *time,
            },
            Call::Cycle(time) => Lent::Cycle(*time),
            Call::Root {
                file,
                held_row,
                own_row,
            } => Lent::Root {
                file: one.lend(file, side),
                held_row: two.lend(held_row, side),
                own_row: three.lend(own_row, side),
            },
            Call::Timestamp { file, row } => Lent::Timestamp {
                file: one.lend(file, side),
                row: two.lend(row, side),
            },
            Call::Snapshot { file, row } => Lent::Snapshot {
                file: one.lend(file, side),
                row: two.lend(row, side),
            },
            Call::Targets { file, row } => Lent::Targets {
                file: one.lend(file, side),
                row: two.lend(row, side),
            },
            Call::Find { file, path } => Lent::Find {
                file: one.lend(file, side),
                path: two.lend(path, side),
            },
            Call::Image { found, fetched } => Lent::Image {
                found: (found.0, one.lend(&found.1, side)),
                fetched: (fetched.0, two.lend(&fetched.1, side)),
            },
            Call::Date(_) | Call::State => return None,
        };
        Some(lent)
    }
}

#[cfg(test)]
mod tests {
    use super::{Guarded, PAGE, ROOM, Side};
    use std::os::unix::process::ExitStatusExt;
    use std::process::{Command, ExitStatus};
    use std::{env, hint};

    /// Says to a child process which access it is to try.
    const VARIABLE: &str = "FUZZ_TRIED_ACCESS";

    #[test]
    fn what_is_lent_is_what_was_given() {
        let mut room = Guarded::new().unwrap();
        for length in [0, 1, 31, PAGE - 1, PAGE, PAGE + 1, ROOM] {
            let bytes: Vec<u8> = (0..length).map(|place| place as u8).collect();
            for side in [Side::Start, Side::End] {
                assert_eq!(room.lend(&bytes, side), bytes);
            }
        }
    }

    /// Accesses a byte at a distance from what is lent.
    #[test]
    #[ignore = "the child process of another test"]
    fn child() {
        let tried = env::var(VARIABLE).expect("the access to be tried");
        let mut room = Guarded::new().unwrap();
        let (side, place, writes) = match tried.as_str() {
            "last byte" => (Side::End, 99, false),
            "first byte" => (Side::Start, 0, false),
            "past the end" => (Side::End, 100, false),
            "before the start" => (Side::Start, -1, false),
            "write" => (Side::End, 50, true),
            other => panic!("{other}: unknown"),
        };
        let lent = room.lend(&[7; 100], side);
        let place = lent.as_ptr().wrapping_offset(place).cast_mut();
        // SAFETY: none; the process is meant to end here, if the memory keeps what it promises.
        unsafe {
            match writes {
                true => place.write_volatile(8),
                false => drop(hint::black_box(place.read_volatile())),
            }
        }
    }

    fn tried(access: &str) -> ExitStatus {
        Command::new(env::current_exe().unwrap())
            .args(["--exact", "memory::tests::child", "--ignored", "--test-threads", "1"])
            .env(VARIABLE, access)
            .output()
            .unwrap()
            .status
    }

    #[test]
    fn access_outside_of_what_is_lent_ends_the_process() {
        const SEGMENT_VIOLATION: i32 = 11;
        for access in ["last byte", "first byte"] {
            assert!(tried(access).success(), "{access}");
        }
        for access in ["past the end", "before the start", "write"] {
            assert_eq!(tried(access).signal(), Some(SEGMENT_VIOLATION), "{access}");
        }
    }
}
