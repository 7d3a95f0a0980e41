//! "Forms" (01): what each of the four files says, read in one pass over its text (refusals 1 to 4, of a root also 16).

use common::Refusal;
use common::date;
use common::hex::{self, Id};
use common::records::{
    Header, Key, LENGTHS, Listed, MAX_ENTRIES, MAX_FILE, MAX_KEYS, MAX_NAMES, MAX_PATH, MAX_TARGETS, Name, Role, Root,
    Search, Signed, Snapshot, Target, Targets, Timestamp, VERSIONS,
};
use common::refusal::ensure;
use common::sha256;
use common::text::{self, Fault, Reader, Text, is_canonical};

/// A root file.
pub fn root(file: &[u8]) -> Result<Signed<Root>, Refusal> {
    read_file(file, |reader| {
        let mut header = HeaderFields::new(b"root");
        let mut consistent_snapshot = None;
        let mut has_true_keyids = false;
        let mut keys = None;
        let mut roles = None;
        reader.object(|reader, name| {
            match name.raw() {
                b"consistent_snapshot" => consistent_snapshot = Some(reader.truth()?),
                b"keys" => {
                    let table = read_keys(reader)?;
                    has_true_keyids = table.has_true_keyids;
                    keys = Some(table.keys);
                }
                // In canonical text the keys stand before the roles.
                b"roles" => roles = Some(read_roles(reader, keys.as_deref().ok_or(Fault)?)?),
                _ => header.read_member(reader, name)?,
            }
            Ok(())
        })?;
        consistent_snapshot.ok_or(Fault)?;
        let [root, timestamp, snapshot, targets] = roles.ok_or(Fault)?;
        let keys = keys.ok_or(Fault)?;
        let (root, spec_version) = header.finish(|header| Root {
            header,
            keys,
            root,
            timestamp,
            snapshot,
            targets,
        })?;
        let keyids = ensure(has_true_keyids, Refusal::OtherKeyid);
        Ok((root, keyids.and(spec_version)))
    })
}

/// A timestamp file.
pub fn timestamp(file: &[u8]) -> Result<Signed<Timestamp>, Refusal> {
    read_file(file, |reader| {
        let mut header = HeaderFields::new(b"timestamp");
        let mut snapshot = None;
        reader.object(|reader, name| match name.raw() {
            b"meta" => reader.object(|reader, name| match name.raw() {
                b"snapshot.json" => {
                    snapshot = Some(read_listed(reader)?);
                    Ok(())
                }
                // "the one name `snapshot.json`"
                _ => Err(Fault),
            }),
            _ => header.read_member(reader, name),
        })?;
        let snapshot = snapshot.ok_or(Fault)?;
        header.finish(|header| Timestamp { header, snapshot })
    })
}

/// A snapshot file.
pub fn snapshot(file: &[u8]) -> Result<Signed<Snapshot>, Refusal> {
    read_file(file, |reader| {
        let mut header = HeaderFields::new(b"snapshot");
        let mut meta = Vec::new();
        reader.object(|reader, name| match name.raw() {
            b"meta" => {
                meta = read_meta(reader)?;
                Ok(())
            }
            _ => header.read_member(reader, name),
        })?;
        // No name at all is missing this one.
        if !meta.iter().any(|(name, _)| name.as_bytes() == b"targets.json") {
            return Err(Fault);
        }
        header.finish(|header| Snapshot { header, meta })
    })
}

/// A targets file, in which a path may be looked for.
pub fn targets(file: &[u8], path: Option<&[u8]>) -> Result<Signed<Targets>, Refusal> {
    read_file(file, |reader| {
        let mut header = HeaderFields::new(b"targets");
        let mut targets = None;
        reader.object(|reader, name| match name.raw() {
            b"targets" => {
                targets = Some(read_targets(reader, path)?);
                Ok(())
            }
            _ => header.read_member(reader, name),
        })?;
        let search = targets.ok_or(Fault)?;
        header.finish(|header| Targets {
            header,
            found: search.found,
            compared: search.compared,
        })
    })
}

/// What a signed part that has its form says, and whether it is refused for its keyids or its spec_version.
type Body<T> = (T, Result<(), Refusal>);

/// Reads a file in one pass. Only where that fails is the text read again, to tell what is not canonical (2) from what
/// has another form (3).
fn read_file<'a, T>(
    file: &'a [u8],
    signed: impl FnOnce(&mut Reader<'a>) -> text::Result<Body<T>>,
) -> Result<Signed<T>, Refusal> {
    if file.len() > MAX_FILE {
        return Err(Refusal::TooLong);
    }
    match text::read_whole(file, |reader| read_envelope(reader, signed)) {
        Ok((signed, said)) => said.map(|()| signed),
        Err(Fault) if is_canonical(file) => Err(Refusal::BrokenForm),
        Err(Fault) => Err(Refusal::NotCanonical),
    }
}

fn read_envelope<'a, T>(
    reader: &mut Reader<'a>,
    signed: impl FnOnce(&mut Reader<'a>) -> text::Result<Body<T>>,
) -> text::Result<Body<Signed<T>>> {
    let mut entries = None;
    let mut body = None;
    let mut signed = Some(signed);
    reader.object(|reader, name| {
        match name.raw() {
            b"signatures" => entries = Some(read_entries(reader)?),
            b"signed" => body = Some(signed.take().ok_or(Fault)?(reader)?),
            _ => reader.skip()?,
        }
        Ok(())
    })?;
    let entries = entries.ok_or(Fault)?;
    let (says, said) = body.ok_or(Fault)?;
    Ok((Signed { entries, says }, said))
}

fn read_entries(reader: &mut Reader) -> text::Result<Vec<Id>> {
    let mut entries = Vec::with_capacity(MAX_ENTRIES);
    reader.array(|reader| {
        if entries.len() == MAX_ENTRIES {
            return Err(Fault);
        }
        entries.push(read_entry(reader)?);
        Ok(())
    })?;
    Ok(entries)
}

/// The keyid of an entry of "keyid" and "sig" (128 lower-case hex).
fn read_entry(reader: &mut Reader) -> text::Result<Id> {
    let mut keyid = None;
    let mut has_sig = false;
    reader.object(|reader, name| {
        match name.raw() {
            b"keyid" => keyid = Some(read_id(reader)?),
            b"sig" => {
                let sig = reader.string()?.raw();
                has_sig = sig.len() == 128 && hex::is_hex(sig);
            }
            _ => reader.skip()?,
        }
        Ok(())
    })?;
    keyid.filter(|_| has_sig).ok_or(Fault)
}

/// "64 lower-case hex"
fn read_id(reader: &mut Reader) -> text::Result<Id> {
    hex::id(reader.string()?.raw()).ok_or(Fault)
}

/// The members that every role has, as they come.
struct HeaderFields {
    role: &'static [u8],
    has_type: bool,
    is_known: Option<bool>,
    version: Option<u64>,
    expires: Option<i64>,
}

impl HeaderFields {
    fn new(role: &'static [u8]) -> HeaderFields {
        HeaderFields {
            role,
            has_type: false,
            is_known: None,
            version: None,
            expires: None,
        }
    }

    /// "Every role: "_type" with its name, "spec_version", "version" .., "expires"". "Unknown members are read as text and
    /// otherwise passed over".
    fn read_member<'a>(&mut self, reader: &mut Reader<'a>, name: Text<'a>) -> text::Result<()> {
        match name.raw() {
            b"_type" => self.has_type = reader.string()?.raw() == self.role,
            b"expires" => self.expires = date::seconds(reader.string()?.raw()),
            b"spec_version" => {
                let spec_version = reader.string()?.raw();
                self.is_known = Some(spec_version == b"1" || spec_version.starts_with(b"1."));
            }
            b"version" => self.version = Some(reader.number_in(VERSIONS)?),
            _ => reader.skip()?,
        }
        Ok(())
    }

    fn finish<T>(self, body: impl FnOnce(Header) -> T) -> text::Result<Body<T>> {
        if !self.has_type {
            return Err(Fault);
        }
        let header = Header {
            version: self.version.ok_or(Fault)?,
            expires: self.expires.ok_or(Fault)?,
        };
        let is_known = self.is_known.ok_or(Fault)?;
        Ok((body(header), ensure(is_known, Refusal::SpecVersion)))
    }
}

/// A key table that has its form.
struct KeyTable {
    keys: Vec<Key>,
    /// "A key table's keyid must be the hex digest of the canonical text of its key".
    has_true_keyids: bool,
}

/// "keys", 1 to 16. "no two keyids of one file may have the same public value"
fn read_keys(reader: &mut Reader) -> text::Result<KeyTable> {
    let mut keys: Vec<Key> = Vec::with_capacity(MAX_KEYS);
    let mut has_true_keyids = true;
    reader.object(|reader, name| {
        let keyid = hex::id(name.raw()).ok_or(Fault)?;
        let rest = reader.rest();
        let public = read_key(reader)?;
        if keys.len() == MAX_KEYS || keys.iter().any(|key| key.public == public) {
            return Err(Fault);
        }
        has_true_keyids &= sha256::digest(reader.since(rest)) == keyid;
        keys.push(Key { keyid, public });
        Ok(())
    })?;
    if keys.is_empty() {
        return Err(Fault);
    }
    Ok(KeyTable { keys, has_true_keyids })
}

/// The public value of a key: "keytype and scheme `ed25519` and a keyval whose public is 64 lower-case hex".
fn read_key(reader: &mut Reader) -> text::Result<Id> {
    let mut is_ed25519 = [false; 2];
    let mut public = None;
    reader.object(|reader, name| {
        match name.raw() {
            b"keytype" => is_ed25519[0] = reader.string()?.raw() == b"ed25519",
            b"keyval" => reader.object(|reader, name| {
                match name.raw() {
                    b"public" => public = Some(read_id(reader)?),
                    _ => reader.skip()?,
                }
                Ok(())
            })?,
            b"scheme" => is_ed25519[1] = reader.string()?.raw() == b"ed25519",
            _ => reader.skip()?,
        }
        Ok(())
    })?;
    public.filter(|_| is_ed25519 == [true; 2]).ok_or(Fault)
}

/// "roles" with root, timestamp, snapshot and targets, given in this order. "Other role names are passed over."
fn read_roles(reader: &mut Reader, keys: &[Key]) -> text::Result<[Role; 4]> {
    let mut roles = [None; 4];
    reader.object(|reader, name| {
        let place = match name.raw() {
            b"root" => 0,
            b"timestamp" => 1,
            b"snapshot" => 2,
            b"targets" => 3,
            _ => return reader.skip(),
        };
        roles[place] = Some(read_role(reader, keys)?);
        Ok(())
    })?;
    match roles {
        [Some(root), Some(timestamp), Some(snapshot), Some(targets)] => Ok([root, timestamp, snapshot, targets]),
        _ => Err(Fault),
    }
}

/// "1 to 16 different keyids from the key table and a threshold from 1 to the number of those keyids"
fn read_role(reader: &mut Reader, keys: &[Key]) -> text::Result<Role> {
    let mut named = None;
    let mut threshold = None;
    reader.object(|reader, name| {
        match name.raw() {
            b"keyids" => named = Some(read_keyids(reader, keys)?),
            b"threshold" => threshold = Some(reader.number_in(1..=MAX_KEYS as u64)? as u32),
            _ => reader.skip()?,
        }
        Ok(())
    })?;
    let role = Role {
        keys: named.ok_or(Fault)?,
        threshold: threshold.ok_or(Fault)?,
    };
    if role.threshold <= role.keys.count_ones() {
        Ok(role)
    } else {
        Err(Fault)
    }
}

/// The keys as bits; each may be named once. That there are any, the threshold asks.
fn read_keyids(reader: &mut Reader, keys: &[Key]) -> text::Result<u16> {
    let mut named = 0;
    reader.array(|reader| {
        let keyid = read_id(reader)?;
        let place = keys.iter().position(|key| key.keyid == keyid).ok_or(Fault)?;
        let bit = 1 << place;
        if named & bit != 0 {
            return Err(Fault);
        }
        named |= bit;
        Ok(())
    })?;
    Ok(named)
}

/// "meta" with at most 32 names of 1 to 32 bytes.
fn read_meta(reader: &mut Reader) -> text::Result<Vec<(Name, Listed)>> {
    let mut meta = Vec::with_capacity(MAX_NAMES);
    reader.object(|reader, name| {
        if meta.len() == MAX_NAMES {
            return Err(Fault);
        }
        let name = Name::new(name).ok_or(Fault)?;
        meta.push((name, read_listed(reader)?));
        Ok(())
    })?;
    Ok(meta)
}

/// "Each gives "version", in the same range, and may give "length" and "hashes"."
fn read_listed(reader: &mut Reader) -> text::Result<Listed> {
    let mut version = None;
    let mut length = None;
    let mut sha256 = None;
    reader.object(|reader, name| {
        match name.raw() {
            b"hashes" => sha256 = Some(read_hashes(reader)?),
            b"length" => length = Some(reader.number_in(LENGTHS)?),
            b"version" => version = Some(reader.number_in(VERSIONS)?),
            _ => reader.skip()?,
        }
        Ok(())
    })?;
    Ok(Listed {
        version: version.ok_or(Fault)?,
        length,
        sha256,
    })
}

/// ""hashes" must have "sha256", 64 lower-case hex; other hash names are passed over."
fn read_hashes(reader: &mut Reader) -> text::Result<Id> {
    let mut sha256 = None;
    reader.object(|reader, name| {
        match name.raw() {
            b"sha256" => sha256 = Some(read_id(reader)?),
            _ => reader.skip()?,
        }
        Ok(())
    })?;
    sha256.ok_or(Fault)
}

/// "targets", 0 to 256 names of 1 to 128 bytes. All are checked, and the path is looked for.
fn read_targets<'p>(reader: &mut Reader, path: Option<&'p [u8]>) -> text::Result<Search<'p>> {
    let mut search = Search::new(path);
    let mut count = 0;
    reader.object(|reader, name| {
        count += 1;
        if count > MAX_TARGETS || !(1..=MAX_PATH).contains(&name.length()) {
            return Err(Fault);
        }
        search.pass(name, read_target(reader)?);
        Ok(())
    })?;
    Ok(search)
}

/// "each with "length" and "hashes" as above, both required"
fn read_target(reader: &mut Reader) -> text::Result<Target> {
    let mut length = None;
    let mut sha256 = None;
    reader.object(|reader, name| {
        match name.raw() {
            b"hashes" => sha256 = Some(read_hashes(reader)?),
            b"length" => length = Some(reader.number_in(LENGTHS)?),
            _ => reader.skip()?,
        }
        Ok(())
    })?;
    Ok(Target {
        length: length.ok_or(Fault)?,
        sha256: sha256.ok_or(Fault)?,
    })
}
