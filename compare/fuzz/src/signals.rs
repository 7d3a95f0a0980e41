//! If the library accesses what it was not lent, the program is ended by a signal; before that, it says where it was.
#![allow(unsafe_code)]

use std::ffi::{c_int, c_void};
use std::sync::atomic::{AtomicU64, Ordering};

use fuzz::run::CALL;

const BUS_ERROR: c_int = 7;
const SEGMENT_VIOLATION: c_int = 11;
const STANDARD_ERROR: c_int = 2;
/// What the system does by itself: it ends the program.
const BY_DEFAULT: usize = 0;

static SEED: AtomicU64 = AtomicU64::new(0);

unsafe extern "C" {
    fn signal(number: c_int, handler: usize) -> usize;
    fn write(file: c_int, bytes: *const c_void, count: usize) -> isize;
}

/// Has the program say the seed and the number of the call.
pub fn say_where(seed: u64) {
    SEED.store(seed, Ordering::Relaxed);
    for number in [SEGMENT_VIOLATION, BUS_ERROR] {
        let handler: extern "C" fn(c_int) = say;
        // SAFETY: the handler calls nothing that a signal's handler may not call.
        unsafe { signal(number, handler as usize) };
    }
}

/// Says it, and has the access made once more, which then ends the program.
extern "C" fn say(number: c_int) {
    put(b"seed ");
    put_number(SEED.load(Ordering::Relaxed));
    put(b", call ");
    put_number(CALL.load(Ordering::Relaxed));
    put(b": the library accessed what it was not lent, or wrote to what it was lent\n");
    // SAFETY: no handler is set.
    unsafe { signal(number, BY_DEFAULT) };
}

fn put(bytes: &[u8]) {
    // SAFETY: the bytes are there. If they cannot be written, nothing can be done about it here.
    unsafe { write(STANDARD_ERROR, bytes.as_ptr().cast(), bytes.len()) };
}

fn put_number(number: u64) {
    if number >= 10 {
        put_number(number / 10);
    }
    put(&[b'0' + (number % 10) as u8]);
}
