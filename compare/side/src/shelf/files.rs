//! The four files as a publisher makes them. Every number is free, so that the limits can be passed.

use std::collections::BTreeMap;
use std::sync::LazyLock;

use paper::hex;

use super::dates;
use super::keyids::keyid_of;
use super::sha256::{Digest, digest};
use super::tree::{Tree, number, object, text};

/// The highest version there is: 2,147,483,647 in document 01, since A7 "9,007,199,254,740,991".
pub const HIGHEST_VERSION: u64 = 9_007_199_254_740_991;

/// The longest file.
pub const LONGEST: usize = 32_768;

/// How many keys there are.
pub const KEYS: usize = 1_000;

/// The keys among them that have members which no form names.
pub const KEYS_WITH_MORE: std::ops::Range<usize> = 500..600;

/// A key, and its true keyid.
#[derive(Clone, Debug, PartialEq, Eq)]
pub struct Key {
    /// The digest of its text, in hex.
    pub keyid: String,
    /// Its public value, in hex.
    pub public: String,
    /// The key itself.
    pub tree: Tree,
}

impl Key {
    /// A key that has what the form asks for.
    pub fn new(public: String) -> Key {
        Key::of(public, |_| ())
    }

    /// A key that has something more.
    fn of(public: String, add_more: impl FnOnce(&mut Tree)) -> Key {
        let mut tree = object([
            ("keytype", text("ed25519")),
            ("keyval", object([("public", text(&*public))])),
            ("scheme", text("ed25519")),
        ]);
        add_more(&mut tree);
        let keyid = keyid_of(&tree);
        Key { keyid, public, tree }
    }
}

/// All keys by number.
static KEY_LIST: LazyLock<Vec<Key>> = LazyLock::new(|| {
    let key = |number: usize| {
        let public = hex::written(&digest(format!("public value {number}").as_bytes()));
        match KEYS_WITH_MORE.contains(&number) {
            true => Key::of(public, |key| add_more(key, number)),
            false => Key::new(public),
        }
    };
    (0..KEYS).map(key).collect()
});

/// Members that keys of older publishers have, and others that none has.
fn add_more(key: &mut Tree, number: usize) {
    let algorithms = || Tree::Array(vec![text("sha256"), text("sha512")]);
    match number % 4 {
        0 => key.insert("keyid_hash_algorithms", algorithms()),
        1 => key.member(&["keyval"]).insert("private", text("")),
        2 => key.insert("", object([("\"\\", Tree::Array(vec![object([("a", algorithms())])]))])),
        _ => {
            key.insert("~", Tree::Raw("-1".to_string()));
            key.member(&["keyval"]).insert("a", Tree::Raw("null".to_string()));
        }
    }
}

/// The key with this number.
pub fn key(number: usize) -> &'static Key {
    &KEY_LIST[number]
}

/// The keyid of the key with this number.
pub fn keyid(number: usize) -> &'static str {
    &key(number).keyid
}

/// The public value of the key with this number.
pub fn public(number: usize) -> &'static str {
    &key(number).public
}

/// Who signs for a role.
#[derive(Clone, Debug, PartialEq, Eq)]
pub struct Role {
    /// Numbers of keys, in file order.
    pub keys: Vec<usize>,
    /// How many are enough.
    pub threshold: u64,
}

impl Role {
    /// Keys of which so many are enough.
    pub fn new(keys: impl Into<Vec<usize>>, threshold: u64) -> Role {
        Role {
            keys: keys.into(),
            threshold,
        }
    }
}

/// What every file has.
#[derive(Clone, Debug, PartialEq, Eq)]
pub struct Header {
    /// The version.
    pub version: u64,
    /// A count of seconds.
    pub expires: i64,
    /// `1` or another text.
    pub spec_version: String,
}

impl Header {
    /// By specification 1.0.26.
    pub fn new(version: u64, expires: i64) -> Header {
        Header {
            version,
            expires,
            spec_version: "1.0.26".to_string(),
        }
    }

    /// The signed part of a role with these members besides.
    fn signed(&self, role: &str, members: impl IntoIterator<Item = (&'static str, Tree)>) -> Tree {
        let header = [
            ("_type", text(role)),
            ("expires", text(dates::written(self.expires))),
            ("spec_version", text(&*self.spec_version)),
            ("version", number(self.version)),
        ];
        object(header.into_iter().chain(members))
    }
}

/// A root.
#[derive(Clone, Debug, PartialEq, Eq)]
pub struct Root {
    /// Version and expiry.
    pub header: Header,
    /// Used by nobody yet.
    pub consistent_snapshot: bool,
    /// The key table: the number of the key whose keyid stands there, and that of the key which stands under it. They are the
    /// same, unless the keyid is to be a wrong one.
    pub keys: BTreeMap<usize, usize>,
    /// Who signs roots.
    pub root: Role,
    /// Who signs timestamps.
    pub timestamp: Role,
    /// Who signs snapshots.
    pub snapshot: Role,
    /// Who signs targets.
    pub targets: Role,
}

impl Root {
    /// Keys 1 and 2 sign roots, 3 and 4 timestamps, 5 and 6 snapshots, 7 and 8 targets; one is enough for each.
    pub fn new(version: u64, expires: i64) -> Root {
        Root {
            header: Header::new(version, expires),
            consistent_snapshot: false,
            keys: (1..=8).map(|key| (key, key)).collect(),
            root: Role::new([1, 2], 1),
            timestamp: Role::new([3, 4], 1),
            snapshot: Role::new([5, 6], 1),
            targets: Role::new([7, 8], 1),
        }
    }

    /// The signed part.
    pub fn signed(&self) -> Tree {
        self.signed_with(key)
    }

    /// The signed part with other keys; they are asked for by number.
    pub fn signed_with<'k>(&self, key: impl Fn(usize) -> &'k Key) -> Tree {
        let keys = self
            .keys
            .iter()
            .map(|(name, value)| (&*key(*name).keyid, key(*value).tree.clone()));
        let roles = [
            ("root", &self.root),
            ("snapshot", &self.snapshot),
            ("targets", &self.targets),
            ("timestamp", &self.timestamp),
        ];
        self.header.signed(
            "root",
            [
                ("consistent_snapshot", Tree::Raw(self.consistent_snapshot.to_string())),
                ("keys", object(keys)),
                ("roles", object(roles.map(|(name, role)| (name, role_tree(role, &key))))),
            ],
        )
    }
}

fn role_tree<'k>(role: &Role, key: impl Fn(usize) -> &'k Key) -> Tree {
    let keyids = role.keys.iter().map(|number| text(&*key(*number).keyid)).collect();
    object([("keyids", Tree::Array(keyids)), ("threshold", number(role.threshold))])
}

/// What is listed for a file of metadata.
#[derive(Clone, Debug, PartialEq, Eq)]
pub struct Listed {
    /// The version.
    pub version: u64,
    /// The length, if it is listed.
    pub length: Option<u64>,
    /// The digest, if it is listed.
    pub sha256: Option<Digest>,
}

impl Listed {
    /// Only the version.
    pub fn version(version: u64) -> Listed {
        Listed {
            version,
            length: None,
            sha256: None,
        }
    }

    /// Everything that can be said of a file.
    pub fn whole(version: u64, file: &[u8]) -> Listed {
        Listed {
            version,
            length: Some(file.len() as u64),
            sha256: Some(digest(file)),
        }
    }

    fn tree(&self) -> Tree {
        let length = self.length.map(|length| ("length", number(length)));
        let hashes = self.sha256.map(|sha256| ("hashes", hashes_tree(&sha256)));
        object(
            [("version", number(self.version))]
                .into_iter()
                .chain(length)
                .chain(hashes),
        )
    }
}

fn hashes_tree(sha256: &Digest) -> Tree {
    object([("sha256", text(hex::written(sha256)))])
}

/// A timestamp.
#[derive(Clone, Debug, PartialEq, Eq)]
pub struct Timestamp {
    /// Version and expiry.
    pub header: Header,
    /// What is listed for the snapshot.
    pub snapshot: Listed,
}

impl Timestamp {
    /// The signed part.
    pub fn signed(&self) -> Tree {
        let meta = object([("snapshot.json", self.snapshot.tree())]);
        self.header.signed("timestamp", [("meta", meta)])
    }
}

/// A snapshot.
#[derive(Clone, Debug, PartialEq, Eq)]
pub struct Snapshot {
    /// Version and expiry.
    pub header: Header,
    /// What is listed, by name.
    pub meta: BTreeMap<String, Listed>,
}

impl Snapshot {
    /// The signed part.
    pub fn signed(&self) -> Tree {
        let meta = object(self.meta.iter().map(|(name, listed)| (&**name, listed.tree())));
        self.header.signed("snapshot", [("meta", meta)])
    }
}

/// A targets file.
#[derive(Clone, Debug, PartialEq, Eq)]
pub struct Targets {
    /// Version and expiry.
    pub header: Header,
    /// Length and digest of the images, by path.
    pub targets: BTreeMap<String, (u64, Digest)>,
}

impl Targets {
    /// The signed part.
    pub fn signed(&self) -> Tree {
        let target =
            |(length, sha256): &(u64, Digest)| object([("hashes", hashes_tree(sha256)), ("length", number(*length))]);
        let targets = object(self.targets.iter().map(|(path, listed)| (&**path, target(listed))));
        self.header.signed("targets", [("targets", targets)])
    }
}

/// A file: the signed part, with an entry for each of the keys.
pub fn file(signed: Tree, keys: &[usize]) -> Tree {
    let entries = keys.iter().zip(0..).map(|(key, place)| entry(*key, place)).collect();
    object([("signatures", Tree::Array(entries)), ("signed", signed)])
}

/// A signature entry. The signature is only text here; no two in a file are the same.
pub fn entry(key: usize, place: usize) -> Tree {
    object([("keyid", text(keyid(key))), ("sig", text(sig(key, place)))])
}

/// The signature in an entry.
pub fn sig(key: usize, place: usize) -> String {
    format!("{key:08x}{place:08x}").repeat(7) + "0123456789abcdef"
}

/// The file made exactly so long by a member `~` that is passed over: in the signed part, or beside it.
pub fn padded(file: &Tree, length: usize, in_signed: bool) -> Vec<u8> {
    let with = |filling: usize| {
        let mut file = file.clone();
        let object = if in_signed { file.member(&["signed"]) } else { &mut file };
        object.insert("~", text("x".repeat(filling)));
        file.written()
    };
    let shortest = with(0).len();
    assert!(
        shortest <= length,
        "a file of {shortest} bytes cannot be made {length} long"
    );
    with(length - shortest)
}

#[cfg(test)]
mod tests {
    use super::{
        Header, KEYS_WITH_MORE, Key, Listed, Root, Snapshot, Targets, Timestamp, digest, file, key, keyid, padded,
        public,
    };
    use paper::forms;
    use std::collections::BTreeMap;

    #[test]
    fn every_file_has_its_form() {
        let header = || Header::new(7, -1);
        let root = file(Root::new(1, 0).signed(), &[1, 2]);
        assert_eq!(forms::root(&root.written()).unwrap().entries.len(), 2);
        let snapshot = Listed::whole(1, b"");
        let timestamp = file(
            Timestamp {
                header: header(),
                snapshot,
            }
            .signed(),
            &[],
        )
        .written();
        assert_eq!(forms::timestamp(&timestamp).unwrap().says.header.expires, -1);
        let meta = BTreeMap::from([("targets.json".to_string(), Listed::version(9))]);
        let snapshot = file(Snapshot { header: header(), meta }.signed(), &[]).written();
        assert_eq!(forms::snapshot(&snapshot).unwrap().says.header.version, 7);
        let targets = BTreeMap::from([("a\"\\".to_string(), (5, digest(b"")))]);
        let targets = file(
            Targets {
                header: header(),
                targets,
            }
            .signed(),
            &[],
        )
        .written();
        assert_eq!(forms::targets(&targets).unwrap().says.targets["a\"\\"].length, 5);
    }

    #[test]
    fn keys_with_more_members_have_true_keyids_too() {
        let mut root = Root::new(1, 0);
        root.keys.extend(KEYS_WITH_MORE.take(8).map(|key| (key, key)));
        let says = forms::root(&file(root.signed(), &[1]).written()).unwrap().says;
        for number in KEYS_WITH_MORE.take(8) {
            assert_eq!(says.keys[keyid(number)], public(number));
            assert_ne!(key(number).tree, Key::new(public(number).to_string()).tree);
        }
    }

    #[test]
    fn padded_to_a_length() {
        let root = file(Root::new(1, 0).signed(), &[1]);
        for in_signed in [false, true] {
            let file = padded(&root, 32_768, in_signed);
            assert_eq!(file.len(), 32_768);
            assert!(forms::root(&file).is_ok());
        }
    }
}
