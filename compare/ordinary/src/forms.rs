//! "Forms" (01): what each of the four files says, taken from the tree of its text (refusals 1 to 4, of a root also 16).

use common::Refusal;
use common::date;
use common::hex::{self, Id};
use common::records::{
    Header, Key, LENGTHS, Listed, MAX_ENTRIES, MAX_FILE, MAX_KEYS, MAX_NAMES, MAX_PATH, MAX_TARGETS, Name, Role, Root,
    Search, Signed, Snapshot, Target, Targets, Timestamp, VERSIONS,
};
use common::refusal::ensure;
use common::sha256;
use common::text::Text;

use crate::tree::{self, Object, Value};

/// A root file.
pub fn root(file: &[u8]) -> Result<Signed<Root>, Refusal> {
    read(file, b"root", |header, signed| {
        signed.get("consistent_snapshot")?.truth()?;
        let key_table = signed.get("keys")?.object()?;
        let keys = read_keys(key_table)?;
        let roles = signed.get("roles")?.object()?;
        let role = |name| read_role(roles.get(name)?, key_table);
        let root = Root {
            header,
            root: role("root")?,
            timestamp: role("timestamp")?,
            snapshot: role("snapshot")?,
            targets: role("targets")?,
            keys,
        };
        let is_true = has_true_keyids(&root.keys, key_table);
        Some((root, ensure(is_true, Refusal::OtherKeyid)))
    })
}

/// A timestamp file.
pub fn timestamp(file: &[u8]) -> Result<Signed<Timestamp>, Refusal> {
    read(file, b"timestamp", |header, signed| {
        let meta = signed.get("meta")?.object()?;
        // "the one name `snapshot.json`"
        if meta.count() != 1 {
            return None;
        }
        let snapshot = read_listed(meta.get("snapshot.json")?)?;
        Some((Timestamp { header, snapshot }, Ok(())))
    })
}

/// A snapshot file.
pub fn snapshot(file: &[u8]) -> Result<Signed<Snapshot>, Refusal> {
    read(file, b"snapshot", |header, signed| {
        let members = signed.get("meta")?.object()?;
        // No name at all is missing this one.
        members.get("targets.json")?;
        let meta = read_meta(members)?;
        Some((Snapshot { header, meta }, Ok(())))
    })
}

/// A targets file, in which a path may be looked for.
pub fn targets(file: &[u8], path: Option<&[u8]>) -> Result<Signed<Targets>, Refusal> {
    read(file, b"targets", |header, signed| {
        let search = read_targets(signed.get("targets")?.object()?, path)?;
        let targets = Targets {
            header,
            found: search.found,
            compared: search.compared,
        };
        Some((targets, Ok(())))
    })
}

/// What a signed part that has its form says, and whether its keyids are refused.
type Body<T> = (T, Result<(), Refusal>);

/// Reads a file of the role. That any form is broken is said before its keyids and its spec_version are judged.
fn read<T>(
    file: &[u8],
    role: &[u8],
    body: impl FnOnce(Header, &Object) -> Option<Body<T>>,
) -> Result<Signed<T>, Refusal> {
    ensure(file.len() <= MAX_FILE, Refusal::TooLong)?;
    let value = tree::parse(file).map_err(|_| Refusal::NotCanonical)?;
    let ((signed, keyids), spec_version) = read_envelope(&value, role, body).ok_or(Refusal::BrokenForm)?;
    keyids?;
    ensure(is_known(spec_version), Refusal::SpecVersion)?;
    Ok(signed)
}

/// The entries and what is signed, and the text of spec_version.
fn read_envelope<'a, T>(
    value: &Value<'a>,
    role: &[u8],
    body: impl FnOnce(Header, &Object) -> Option<Body<T>>,
) -> Option<(Body<Signed<T>>, Text<'a>)> {
    let members = value.object()?;
    let entries = read_entries(members.get("signatures")?.array()?)?;
    let signed = members.get("signed")?.object()?;
    let (header, spec_version) = read_header(signed, role)?;
    let (says, keyids) = body(header, signed)?;
    Some(((Signed { entries, says }, keyids), spec_version))
}

fn read_entries(entries: &[Value]) -> Option<Vec<Id>> {
    if entries.len() > MAX_ENTRIES {
        return None;
    }
    let mut keyids = Vec::with_capacity(entries.len());
    for entry in entries {
        keyids.push(read_entry(entry)?);
    }
    Some(keyids)
}

/// The keyid of an entry of "keyid" and "sig" (128 lower-case hex).
fn read_entry(entry: &Value) -> Option<Id> {
    let members = entry.object()?;
    let sig = members.get("sig")?.string()?.raw();
    let has_sig = sig.len() == 128 && hex::is_hex(sig);
    read_id(members.get("keyid")?).filter(|_| has_sig)
}

/// "64 lower-case hex"
fn read_id(value: &Value) -> Option<Id> {
    hex::id(value.string()?.raw())
}

/// "Every role: "_type" with its name, "spec_version", "version" .., "expires""
fn read_header<'a>(signed: &Object<'a>, role: &[u8]) -> Option<(Header, Text<'a>)> {
    if !signed.get("_type")?.string()?.is(role) {
        return None;
    }
    let header = Header {
        version: signed.get("version")?.within(VERSIONS)?,
        expires: date::seconds(signed.get("expires")?.string()?.raw())?,
    };
    Some((header, signed.get("spec_version")?.string()?))
}

/// "exactly `1` or beginning with `1.`"
fn is_known(spec_version: Text) -> bool {
    spec_version.raw() == b"1" || spec_version.raw().starts_with(b"1.")
}

/// "keys", 1 to 16. "no two keyids of one file may have the same public value"
fn read_keys(members: &Object) -> Option<Vec<Key>> {
    if !(1..=MAX_KEYS).contains(&members.count()) {
        return None;
    }
    let mut keys: Vec<Key> = Vec::with_capacity(members.count());
    for (keyid, key) in members.iter() {
        let keyid = hex::id(keyid.raw())?;
        let public = read_key(key)?;
        if keys.iter().any(|key| key.public == public) {
            return None;
        }
        keys.push(Key { keyid, public });
    }
    Some(keys)
}

/// The public value of a key: "keytype and scheme `ed25519` and a keyval whose public is 64 lower-case hex".
fn read_key(key: &Value) -> Option<Id> {
    let members = key.object()?;
    for name in ["keytype", "scheme"] {
        if !members.get(name)?.string()?.is(b"ed25519") {
            return None;
        }
    }
    read_id(members.get("keyval")?.object()?.get("public")?)
}

/// "A key table's keyid must be the hex digest of the canonical text of its key, unknown members included".
fn has_true_keyids(keys: &[Key], key_table: &Object) -> bool {
    let mut pairs = keys.iter().zip(key_table.iter());
    pairs.all(|(key, (_, value))| {
        let text = value.object().map(Object::text);
        text.is_some_and(|text| sha256::digest(text) == key.keyid)
    })
}

/// "1 to 16 different keyids from the key table and a threshold from 1 to the number of those keyids"
fn read_role(role: &Value, key_table: &Object) -> Option<Role> {
    let members = role.object()?;
    let keys = read_keyids(members.get("keyids")?.array()?, key_table)?;
    let most = u64::from(keys.count_ones());
    let threshold = members.get("threshold")?.within(1..=most)? as u32;
    Some(Role { keys, threshold })
}

/// The keys as bits; each may be named once. That there are any, the threshold asks. Two strings are equal exactly if their
/// raw bytes are, so the hex need not be undone to find a key.
fn read_keyids(keyids: &[Value], key_table: &Object) -> Option<u16> {
    let mut named = 0;
    for keyid in keyids {
        let keyid = keyid.string()?.raw();
        let place = key_table.iter().position(|(key, _)| key.raw() == keyid)?;
        let bit = 1 << place;
        if named & bit != 0 {
            return None;
        }
        named |= bit;
    }
    Some(named)
}

/// "meta" with at most 32 names of 1 to 32 bytes.
fn read_meta(members: &Object) -> Option<Vec<(Name, Listed)>> {
    if members.count() > MAX_NAMES {
        return None;
    }
    let mut meta = Vec::with_capacity(members.count());
    for (name, listed) in members.iter() {
        meta.push((Name::new(name)?, read_listed(listed)?));
    }
    Some(meta)
}

/// "Each gives "version", in the same range, and may give "length" and "hashes"". What is given must have its form.
fn read_listed(listed: &Value) -> Option<Listed> {
    let members = listed.object()?;
    Some(Listed {
        version: members.get("version")?.within(VERSIONS)?,
        length: given(members.get("length"), |length| length.within(LENGTHS))?,
        sha256: given(members.get("hashes"), read_hashes)?,
    })
}

/// A member that may be missing: `Some(None)` if it is, `None` if it is there and has not its form.
fn given<'v, 'a, T>(
    member: Option<&'v Value<'a>>,
    read_one: impl FnOnce(&'v Value<'a>) -> Option<T>,
) -> Option<Option<T>> {
    match member {
        None => Some(None),
        Some(value) => read_one(value).map(Some),
    }
}

/// ""hashes" must have "sha256", 64 lower-case hex; other hash names are passed over."
fn read_hashes(hashes: &Value) -> Option<Id> {
    read_id(hashes.object()?.get("sha256")?)
}

/// "targets", 0 to 256 names of 1 to 128 bytes. All are checked, and the path is looked for.
fn read_targets<'p>(members: &Object, path: Option<&'p [u8]>) -> Option<Search<'p>> {
    if members.count() > MAX_TARGETS {
        return None;
    }
    let mut search = Search::new(path);
    for (name, target) in members.iter() {
        if !(1..=MAX_PATH).contains(&name.length()) {
            return None;
        }
        search.pass(name, read_target(target)?);
    }
    Some(search)
}

/// "each with "length" and "hashes" as above, both required"
fn read_target(target: &Value) -> Option<Target> {
    let members = target.object()?;
    Some(Target {
        length: members.get("length")?.within(LENGTHS)?,
        sha256: read_hashes(members.get("hashes")?)?,
    })
}
