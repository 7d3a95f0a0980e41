//! "Forms": what a root, timestamp, snapshot and targets file says (refusals 1 to 4, of a root also 16).
//!
//! The readers of the parts give `None` where a form is broken.

use std::collections::{BTreeMap, BTreeSet};
use std::ops::RangeInclusive;

use crate::date;
use crate::envelope::{self, Entry, hex_member};
use crate::hex::{self, is_hex};
use crate::json::{Object, Value};
use crate::refusal::{Objections, Refusal};
use crate::sha256;

/// "version" 1 to 2,147,483,647; since A7 "from 1 to 9,007,199,254,740,991"
const VERSIONS: RangeInclusive<u64> = 1..=9_007_199_254_740_991;

/// "length" (0 to 4,294,967,295)
const LENGTHS: RangeInclusive<u64> = 0..=4_294_967_295;

/// "keys", 1 to 16
const KEYS: RangeInclusive<usize> = 1..=16;

/// "each with 1 to 16 different keyids"
const KEYIDS: RangeInclusive<usize> = 1..=16;

/// "1 to 32 names of 1 to 32 bytes"
const META_NAMES: RangeInclusive<usize> = 1..=32;
const META_NAME_BYTES: RangeInclusive<usize> = 1..=32;

/// "0 to 256 names of 1 to 128 bytes"
const TARGETS: RangeInclusive<usize> = 0..=256;

/// How long the name of a target, and so a path, may be.
pub const TARGET_NAME_BYTES: RangeInclusive<usize> = 1..=128;

/// A file that has its form: its entries, and what its signed part says.
#[derive(Clone, Debug, PartialEq, Eq)]
pub struct Signed<T> {
    /// The signature entries in file order.
    pub entries: Vec<Entry>,
    /// What is signed.
    pub says: T,
}

/// What every role has.
#[derive(Clone, Debug, PartialEq, Eq)]
pub struct Header {
    /// "version"
    pub version: u64,
    /// "expires", as a count of seconds.
    pub expires: i64,
}

/// What a root says.
#[derive(Clone, Debug, PartialEq, Eq)]
pub struct Root {
    /// Version and expiry.
    pub header: Header,
    /// "consistent_snapshot"
    pub consistent_snapshot: bool,
    /// The key table: keyid to public value, both in hex.
    pub keys: BTreeMap<String, String>,
    /// Who signs roots.
    pub root: Role,
    /// Who signs timestamps.
    pub timestamp: Role,
    /// Who signs snapshots.
    pub snapshot: Role,
    /// Who signs targets.
    pub targets: Role,
}

/// Who signs for a role.
#[derive(Clone, Debug, PartialEq, Eq)]
pub struct Role {
    /// "different keyids from the key table"
    pub keyids: BTreeSet<String>,
    /// How many of them are enough.
    pub threshold: u64,
}

/// What a timestamp says.
#[derive(Clone, Debug, PartialEq, Eq)]
pub struct Timestamp {
    /// Version and expiry.
    pub header: Header,
    /// What is listed for `snapshot.json`.
    pub snapshot: Listed,
}

/// What a snapshot says.
#[derive(Clone, Debug, PartialEq, Eq)]
pub struct Snapshot {
    /// Version and expiry.
    pub header: Header,
    /// What is listed, by name.
    pub meta: BTreeMap<String, Listed>,
}

/// What is listed for a file of metadata.
#[derive(Clone, Debug, PartialEq, Eq)]
pub struct Listed {
    /// "version"
    pub version: u64,
    /// "may give "length""
    pub length: Option<u64>,
    /// "and "hashes"": the sha256 in hex.
    pub sha256: Option<String>,
}

/// What a targets file says.
#[derive(Clone, Debug, PartialEq, Eq)]
pub struct Targets {
    /// Version and expiry.
    pub header: Header,
    /// The images, by path.
    pub targets: BTreeMap<String, Target>,
}

/// What is listed for an image.
#[derive(Clone, Debug, PartialEq, Eq)]
pub struct Target {
    /// "length"
    pub length: u64,
    /// The sha256 in hex.
    pub sha256: String,
}

/// A root file.
pub fn root(file: &[u8]) -> Result<Signed<Root>, Refusal> {
    read(file, "root", has_true_keyids, |header, signed| {
        let keys = read_keys(signed)?;
        let roles = signed.get("roles")?.object()?;
        let role = |name| read_role(roles.get(name)?, &keys);
        Some(Root {
            header,
            consistent_snapshot: signed.get("consistent_snapshot")?.truth()?,
            root: role("root")?,
            timestamp: role("timestamp")?,
            snapshot: role("snapshot")?,
            targets: role("targets")?,
            keys,
        })
    })
}

/// A timestamp file.
pub fn timestamp(file: &[u8]) -> Result<Signed<Timestamp>, Refusal> {
    read(file, "timestamp", has_no_keys, |header, signed| {
        let meta = signed.get("meta")?.object()?;
        // "the one name `snapshot.json`"
        if meta.len() != 1 {
            return None;
        }
        Some(Timestamp {
            header,
            snapshot: read_listed(meta.get("snapshot.json")?)?,
        })
    })
}

/// A snapshot file.
pub fn snapshot(file: &[u8]) -> Result<Signed<Snapshot>, Refusal> {
    read(file, "snapshot", has_no_keys, |header, signed| {
        let meta = read_table(signed.get("meta")?, META_NAMES, META_NAME_BYTES, read_listed)?;
        meta.contains_key("targets.json").then_some(Snapshot { header, meta })
    })
}

/// A targets file.
pub fn targets(file: &[u8]) -> Result<Signed<Targets>, Refusal> {
    read(file, "targets", has_no_keys, |header, signed| {
        Some(Targets {
            header,
            targets: read_table(signed.get("targets")?, TARGETS, TARGET_NAME_BYTES, read_target)?,
        })
    })
}

/// Reads a file of the role. That any form is broken is said before its keyids and its spec_version are judged.
fn read<T>(
    file: &[u8],
    role: &str,
    keyids_are_true: fn(&Object) -> bool,
    says: impl FnOnce(Header, &Object) -> Option<T>,
) -> Result<Signed<T>, Refusal> {
    let envelope = envelope::open(file)?;
    let signed = &envelope.signed;
    let (header, spec_version) = read_header(signed, role).ok_or(Refusal::BrokenForm)?;
    let says = says(header, signed).ok_or(Refusal::BrokenForm)?;
    let mut objections = Objections::default();
    objections.add_if(!keyids_are_true(signed), Refusal::OtherKeyid);
    objections.add_if(!is_known(spec_version), Refusal::SpecVersion);
    objections.first()?;
    Ok(Signed {
        entries: envelope.entries,
        says,
    })
}

/// "Every role": the header, and the text of spec_version.
fn read_header<'a>(signed: &'a Object, role: &str) -> Option<(Header, &'a str)> {
    if signed.get("_type")?.string()? != role {
        return None;
    }
    let header = Header {
        version: signed.get("version")?.within(VERSIONS)?,
        expires: date::seconds(signed.get("expires")?.string()?.as_bytes())?,
    };
    Some((header, signed.get("spec_version")?.string()?))
}

/// "exactly `1` or beginning with `1.`"
fn is_known(spec_version: &str) -> bool {
    spec_version == "1" || spec_version.starts_with("1.")
}

/// "A key table's keyid must be the hex digest of the canonical text of its key, unknown members included".
fn has_true_keyids(signed: &Object) -> bool {
    let keyid_of = |key: &Value| hex::written(&sha256::digest(key.written().as_bytes()));
    let mut keys = signed.get("keys").and_then(Value::object).into_iter().flatten();
    keys.all(|(keyid, key)| *keyid == keyid_of(key))
}

/// Of a role without a key table nothing is asked.
fn has_no_keys(_: &Object) -> bool {
    true
}

/// "keyid to keytype and scheme `ed25519` and a keyval whose public is 64 lower-case hex"
fn read_keys(signed: &Object) -> Option<BTreeMap<String, String>> {
    let members = signed.get("keys")?.object()?;
    if !KEYS.contains(&members.len()) {
        return None;
    }
    let mut keys = BTreeMap::new();
    for (keyid, key) in members {
        if !is_hex(keyid, hex::OF_32_BYTES) {
            return None;
        }
        keys.insert(keyid.clone(), read_key(key)?);
    }
    // "no two keyids of one file may have the same public value"
    let publics: BTreeSet<&String> = keys.values().collect();
    (publics.len() == keys.len()).then_some(keys)
}

/// The public value of a key.
fn read_key(key: &Value) -> Option<String> {
    let members = key.object()?;
    for name in ["keytype", "scheme"] {
        if members.get(name)?.string()? != "ed25519" {
            return None;
        }
    }
    hex_member(members.get("keyval")?.object()?, "public", hex::OF_32_BYTES)
}

/// "1 to 16 different keyids from the key table and a threshold from 1 to the number of those keyids"
fn read_role(role: &Value, keys: &BTreeMap<String, String>) -> Option<Role> {
    let members = role.object()?;
    let items = members.get("keyids")?.array()?;
    let mut keyids = BTreeSet::new();
    for item in items {
        let keyid = item.string()?;
        let is_new = keyids.insert(keyid.to_string());
        if !is_new || !keys.contains_key(keyid) {
            return None;
        }
    }
    if !KEYIDS.contains(&keyids.len()) {
        return None;
    }
    let threshold = members.get("threshold")?.within(1..=keyids.len() as u64)?;
    Some(Role { keyids, threshold })
}

/// A table whose names are data: so many names, each of so many bytes.
fn read_table<T>(
    table: &Value,
    names: RangeInclusive<usize>,
    name_bytes: RangeInclusive<usize>,
    read_one: fn(&Value) -> Option<T>,
) -> Option<BTreeMap<String, T>> {
    let members = table.object()?;
    if !names.contains(&members.len()) {
        return None;
    }
    let read_member = |(name, value): (&String, &Value)| {
        let fits = name_bytes.contains(&name.len());
        fits.then_some(())?;
        Some((name.clone(), read_one(value)?))
    };
    members.iter().map(read_member).collect()
}

/// "Each gives "version", in the same range, and may give "length" and "hashes"". What is given must have its form.
fn read_listed(listed: &Value) -> Option<Listed> {
    let members = listed.object()?;
    Some(Listed {
        version: members.get("version")?.within(VERSIONS)?,
        length: given(members, "length", |length| length.within(LENGTHS))?,
        sha256: given(members, "hashes", read_hashes)?,
    })
}

/// A member that may be missing: `Some(None)` if it is, `None` if it is there and has not its form.
fn given<T>(members: &Object, name: &str, read_one: impl FnOnce(&Value) -> Option<T>) -> Option<Option<T>> {
    match members.get(name) {
        None => Some(None),
        Some(value) => read_one(value).map(Some),
    }
}

/// "each with "length" and "hashes" as above, both required"
fn read_target(target: &Value) -> Option<Target> {
    let members = target.object()?;
    Some(Target {
        length: members.get("length")?.within(LENGTHS)?,
        sha256: read_hashes(members.get("hashes")?)?,
    })
}

/// ""hashes" must have "sha256", 64 lower-case hex; other hash names are passed over."
fn read_hashes(hashes: &Value) -> Option<String> {
    hex_member(hashes.object()?, "sha256", hex::OF_32_BYTES)
}
