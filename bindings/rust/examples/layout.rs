//! Where this crate has the fields of each struct that it shares with the archive: the table of bindings/layout/archive.c.

use gronwythal::raw::{Digest, Entry, Image, Look, PublicKey, State, Step, Version, Versions};
use std::mem::{align_of, offset_of, size_of};

fn field_size<S, F>(_: fn(&S) -> &F) -> usize {
    size_of::<F>()
}

macro_rules! table {
    ($($name:ident: $struct:ident { $($($field:ident).+),* })*) => {$(
        println!("{} size {}", stringify!($name), size_of::<$struct>());
        $(
            let field = concat!($(".", stringify!($field)),+);
            let size = field_size(|s: &$struct| &s.$($field).+);
            println!("{} {} {} {size}", stringify!($name), &field[1..], offset_of!($struct, $($field).+));
        )*
    )*};
}

fn main() {
    println!("state align {}", align_of::<State>());
    table! {
        state: State {}
        step: Step { answer, state }
        image: Image { answer, length, digest, compared }
        digest: Digest { bytes }
        public_key: PublicKey { answer, bytes }
        look: Look { answer, start, length, entries }
        entry: Entry { answer, keyid, sig }
        version: Version { held, number }
        versions: Versions {
            root.held, root.number, timestamp.held, timestamp.number, snapshot.held, snapshot.number, targets.held, targets.number, start
        }
    }
}
