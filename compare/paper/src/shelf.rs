//! Files for the tests, written as text.

use std::collections::BTreeMap;

use crate::hex;
use crate::sha256;

/// "2030-01-01T00:00:00Z is 1893456000"
pub const EXPIRES: &str = "2030-01-01T00:00:00Z";
pub const EXPIRY: i64 = 1_893_456_000;

/// A start time well before [`EXPIRES`].
pub const NOW: i64 = 1_700_000_000;

/// The text of the key with this number.
pub fn key_text(number: usize) -> String {
    let public = public(number);
    format!(r#"{{"keytype":"ed25519","keyval":{{"public":"{public}"}},"scheme":"ed25519"}}"#)
}

/// The keyid of the key with this number.
pub fn keyid(number: usize) -> String {
    keyid_of(&key_text(number))
}

/// The keyid of a key with this text.
pub fn keyid_of(key_text: &str) -> String {
    hex::written(&sha256::digest(key_text.as_bytes()))
}

/// The public value of that key.
pub fn public(number: usize) -> String {
    format!("{number:02x}{}", "9b".repeat(31))
}

/// A signature of that key.
pub fn sig(number: usize) -> String {
    format!("{number:02x}{}", "5e".repeat(63))
}

/// The digest of the image with this number.
pub fn digest(number: u8) -> [u8; 32] {
    [number; 32]
}

/// A file with an entry for each of the keys.
pub fn file(keys: &[usize], signed: &str) -> Vec<u8> {
    let entries: Vec<String> = keys.iter().map(|key| entry(&keyid(*key), *key)).collect();
    with_entries(&entries, signed)
}

fn entry(keyid: &str, key: usize) -> String {
    format!(r#"{{"keyid":"{keyid}","sig":"{}"}}"#, sig(key))
}

fn with_entries(entries: &[String], signed: &str) -> Vec<u8> {
    format!(r#"{{"signatures":[{}],"signed":{signed}}}"#, entries.join(",")).into_bytes()
}

/// A root: which keys sign for each role, and how many are enough.
#[derive(Clone)]
pub struct Root {
    pub version: u64,
    pub expires: &'static str,
    pub keys: Vec<usize>,
    pub root: (Vec<usize>, u64),
    pub snapshot: (Vec<usize>, u64),
    pub targets: (Vec<usize>, u64),
    pub timestamp: (Vec<usize>, u64),
    pub spec_version: &'static str,
    /// Keys that have another text than [`key_text`]; their keyids follow.
    pub texts: BTreeMap<usize, String>,
    /// Keys that have another keyid than that of their text.
    pub keyids: BTreeMap<usize, String>,
}

impl Root {
    /// Keys 1 and 2 sign roots, 3 snapshots, 4 targets, 5 timestamps; one is enough for each.
    pub fn new(version: u64) -> Root {
        Root {
            version,
            expires: EXPIRES,
            keys: vec![1, 2, 3, 4, 5, 6],
            root: (vec![1, 2], 1),
            snapshot: (vec![3], 1),
            targets: (vec![4], 1),
            timestamp: (vec![5], 1),
            spec_version: "1.0.26",
            texts: BTreeMap::new(),
            keyids: BTreeMap::new(),
        }
    }

    /// The text that a key has in this root.
    pub fn key_text(&self, key: usize) -> String {
        self.texts.get(&key).cloned().unwrap_or_else(|| key_text(key))
    }

    /// The keyid that a key has in this root.
    pub fn keyid(&self, key: usize) -> String {
        let keyid = self.keyids.get(&key).cloned();
        keyid.unwrap_or_else(|| keyid_of(&self.key_text(key)))
    }

    /// The signed part.
    pub fn signed(&self) -> String {
        let key = |key: &usize| format!(r#""{}":{}"#, self.keyid(*key), self.key_text(*key));
        let role = |(keys, threshold): &(Vec<usize>, u64)| {
            let keyids: Vec<String> = keys.iter().map(|key| format!("\"{}\"", self.keyid(*key))).collect();
            format!(r#"{{"keyids":[{}],"threshold":{threshold}}}"#, keyids.join(","))
        };
        let mut keys: Vec<String> = self.keys.iter().map(key).collect();
        // All keyids have one length, so the members are in order if they are so by their text.
        keys.sort();
        format!(
            r#"{{"_type":"root","consistent_snapshot":false,"expires":"{}","keys":{{{}}},"roles":{{"root":{},"snapshot":{},"targets":{},"timestamp":{}}},"spec_version":"{}","version":{}}}"#,
            self.expires,
            keys.join(","),
            role(&self.root),
            role(&self.snapshot),
            role(&self.targets),
            role(&self.timestamp),
            self.spec_version,
            self.version
        )
    }

    /// The file with entries of these keys.
    pub fn file(&self, keys: &[usize]) -> Vec<u8> {
        let entries: Vec<String> = keys.iter().map(|key| entry(&self.keyid(*key), *key)).collect();
        with_entries(&entries, &self.signed())
    }
}

fn other_signed(role: &str, expires: &str, table: &str, version: u64) -> String {
    // "targets" is the one table that stands behind "spec_version".
    let (before, after) = match role {
        "targets" => (String::new(), format!(r#""targets":{{{table}}},"#)),
        _ => (format!(r#""meta":{{{table}}},"#), String::new()),
    };
    format!(r#"{{"_type":"{role}","expires":"{expires}",{before}"spec_version":"1",{after}"version":{version}}}"#)
}

/// The signed part of a timestamp; `listed` is what is said of the snapshot.
pub fn timestamp(version: u64, expires: &str, listed: &str) -> String {
    let table = format!(r#""snapshot.json":{{{listed}}}"#);
    other_signed("timestamp", expires, &table, version)
}

/// The signed part of a snapshot; the table is given whole.
pub fn snapshot(version: u64, expires: &str, table: &str) -> String {
    other_signed("snapshot", expires, table, version)
}

/// The signed part of a targets file; the table is given whole.
pub fn targets(version: u64, expires: &str, table: &str) -> String {
    other_signed("targets", expires, table, version)
}

/// A target of the table.
pub fn target(name: &str, length: u64, sha256: &str) -> String {
    format!(r#""{name}":{{"hashes":{{"sha256":"{sha256}"}},"length":{length}}}"#)
}
