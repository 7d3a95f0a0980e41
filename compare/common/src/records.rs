//! What the files say, as the steps need it and the state keeps it, and the limits of the forms.

use std::ops::RangeInclusive;

use crate::hex::Id;
use crate::text::Text;

/// "file longer than 32,768 bytes"
pub const MAX_FILE: usize = 32_768;

/// "at most 16 entries"
pub const MAX_ENTRIES: usize = 16;

/// "version" 1 to 2,147,483,647; since A7 "from 1 to 9,007,199,254,740,991"
pub const VERSIONS: RangeInclusive<u64> = 1..=9_007_199_254_740_991;

/// "length" (0 to 4,294,967,295)
pub const LENGTHS: RangeInclusive<u64> = 0..=4_294_967_295;

/// "keys", 1 to 16; so a set of them is a u16.
pub const MAX_KEYS: usize = 16;

/// "1 to 32 names of 1 to 32 bytes"
pub const MAX_NAMES: usize = 32;
/// The bytes of a name.
pub const MAX_NAME: usize = 32;

/// "0 to 256 names of 1 to 128 bytes"
pub const MAX_TARGETS: usize = 256;
/// The bytes of a path.
pub const MAX_PATH: usize = 128;

/// A file that has its form.
pub struct Signed<T> {
    /// The keyids of its signature entries, in file order.
    pub entries: Vec<Id>,
    /// What is signed.
    pub says: T,
}

/// What every role has.
#[derive(Clone, Debug, PartialEq, Eq)]
pub struct Header {
    /// "version"
    pub version: u64,
    /// "expires", in seconds from 1970.
    pub expires: i64,
}

/// A root, as it is kept.
#[derive(Clone, Debug, PartialEq, Eq)]
pub struct Root {
    /// Version and expiry.
    pub header: Header,
    /// The key table, in the order of the keyids.
    pub keys: Vec<Key>,
    /// Who signs roots.
    pub root: Role,
    /// Who signs timestamps.
    pub timestamp: Role,
    /// Who signs snapshots.
    pub snapshot: Role,
    /// Who signs targets.
    pub targets: Role,
}

/// A key of the table.
#[derive(Clone, Debug, PartialEq, Eq)]
pub struct Key {
    /// The keyid.
    pub keyid: Id,
    /// The public value.
    pub public: Id,
}

/// Who signs for a role.
#[derive(Clone, Copy, Debug, PartialEq, Eq)]
pub struct Role {
    /// The keys, a bit for each place of the key table.
    pub keys: u16,
    /// How many of them are enough.
    pub threshold: u32,
}

/// A timestamp.
#[derive(Clone, Debug, PartialEq, Eq)]
pub struct Timestamp {
    /// Version and expiry.
    pub header: Header,
    /// What is listed for `snapshot.json`.
    pub snapshot: Listed,
}

/// A snapshot.
#[derive(Clone, Debug, PartialEq, Eq)]
pub struct Snapshot {
    /// Version and expiry.
    pub header: Header,
    /// What is listed, in the order of the names.
    pub meta: Vec<(Name, Listed)>,
}

/// A name of 1 to 32 bytes; the rest of the array is zero.
#[derive(Clone, Copy, Debug, PartialEq, Eq)]
pub struct Name {
    bytes: [u8; MAX_NAME],
    length: usize,
}

impl Name {
    /// The name that a string is; `None` if it is empty or too long.
    pub fn new(text: Text) -> Option<Name> {
        let length = text.length();
        if !(1..=MAX_NAME).contains(&length) {
            return None;
        }
        let mut bytes = [0; MAX_NAME];
        for (place, byte) in bytes.iter_mut().zip(text.bytes()) {
            *place = byte;
        }
        Some(Name { bytes, length })
    }

    /// The bytes.
    pub fn as_bytes(&self) -> &[u8] {
        &self.bytes[..self.length]
    }
}

/// What is listed for a file of metadata.
#[derive(Clone, Debug, PartialEq, Eq)]
pub struct Listed {
    /// "version"
    pub version: u64,
    /// "may give "length""
    pub length: Option<u64>,
    /// "and "hashes"": the sha256.
    pub sha256: Option<Id>,
}

/// What is listed for an image.
#[derive(Clone, Copy, Debug, PartialEq, Eq)]
pub struct Target {
    /// "length"
    pub length: u64,
    /// The sha256.
    pub sha256: Id,
}

/// A targets file: its header, and what it lists for the path that was asked for.
pub struct Targets {
    /// Version and expiry.
    pub header: Header,
    /// The image of that path, if it is listed.
    pub found: Option<Target>,
    /// "how many names it compared"
    pub compared: usize,
}

/// A search for a path in a list of images, which come in the rising order of their names.
pub struct Search<'p> {
    /// The path, until a name has come that is not smaller.
    wanted: Option<&'p [u8]>,
    /// The image of the path, if it has come.
    pub found: Option<Target>,
    /// How many names were compared with the path.
    pub compared: usize,
}

impl<'p> Search<'p> {
    /// Before the first image; without a path nothing is looked for.
    pub fn new(path: Option<&'p [u8]>) -> Search<'p> {
        Search {
            wanted: path,
            found: None,
            compared: 0,
        }
    }

    /// The next image. Its name is compared only if the search has not ended before.
    pub fn pass(&mut self, name: Text, target: Target) {
        let Some(path) = self.wanted else { return };
        self.compared += 1;
        let order = name.order_to(path);
        if order.is_eq() {
            self.found = Some(target);
        }
        if order.is_ge() {
            self.wanted = None;
        }
    }
}
