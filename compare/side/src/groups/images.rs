//! `image LENGTH DIGEST LENGTH DIGEST`: is what was fetched what was found?

use super::all_of;
use crate::calls::Call;
use crate::compare::{Case, Cases, Group};
use crate::shelf::sha256::digest;

/// The groups of this call.
pub fn groups() -> Vec<Group> {
    vec![Group {
        name: "images",
        calls: &["image"],
        cases: |_| images(),
        least: 2_000,
        shares: &[("image 0", 1), ("image 5", 10), ("image 8", 10)],
        complete: &["image"],
        renewed: false,
    }]
}

fn stated(found: (u64, &[u8]), fetched: (u64, &[u8]), number: u8) -> Case {
    let call = Call::Image {
        found: (found.0, found.1.to_vec()),
        fetched: (fetched.0, fetched.1.to_vec()),
    };
    Case::stated(call, format!("image {number}"))
}

/// Every two lengths about the edges of the usual types, every bit of the digest, and digests of other lengths.
fn images() -> Cases {
    const LENGTHS: [u64; 17] = [
        0,
        1,
        255,
        256,
        65_535,
        65_536,
        (1 << 31) - 1,
        1 << 31,
        4_294_967_295,
        4_294_967_296,
        4_294_967_297,
        1 << 63,
        (1 << 63) - 1,
        (1 << 63) + 1,
        u64::MAX - 1,
        u64::MAX,
        31,
    ];
    let sound = digest(b"an image");
    let other = digest(b"another image");
    let mut cases = Vec::new();
    for found in LENGTHS {
        for fetched in LENGTHS {
            let number = if found == fetched { 0 } else { 8 };
            cases.push(stated((found, &sound), (fetched, &sound), number));
            cases.push(stated((found, &sound), (fetched, &other), 8));
            cases.push(stated((found, &sound), (fetched, &sound[..31]), 5));
            cases.push(stated((found, &[]), (fetched, &sound), 5));
        }
    }
    for bit in 0..256 {
        let mut edited = sound;
        edited[bit / 8] ^= 1 << (bit % 8);
        cases.push(stated((31, &sound), (31, &edited), 8));
        cases.push(stated((31, &edited), (31, &sound), 8));
        cases.push(stated((31, &edited), (31, &edited), 0));
    }
    let long = sound.repeat(9);
    for length in 0..260 {
        let number = if length == 32 { 0 } else { 5 };
        cases.push(stated((31, &long[..length]), (31, &sound), number));
        cases.push(stated((31, &sound), (31, &long[..length]), number));
        cases.push(stated((31, &long[..length]), (31, &long[..length]), number));
    }
    all_of(cases)
}
